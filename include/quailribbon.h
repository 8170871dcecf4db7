/* Quailribbon: exact light readings from a sampled spectrum.
 *
 * A spectrum is a start wavelength (300 to 380 nm), a step (1, 2, 5 or 10 nm) and a row of samples in µW·m⁻²·nm⁻¹, none
 * above 1,000,000, whose last wavelength is from 780 to 830 nm. A panel has reflectances in 1/10000, none above 10,000,
 * on such a grid. Both are read from 360 to 830 nm: on straight lines between the samples, and where nothing was
 * measured as the first or the last sample.
 *
 * Every call is answered, whatever it is given: `number` 0 means that the values are given, but for those that have a
 * number of their own beside them (`xy_number`); else it is the refusal's number (below), `place` is that of the first
 * faulty sample for QR_SAMPLE and QR_REFLECTANCE, counted from 0, and everything else is 0.
 *
 * A call that succeeds writes exactly what it reports into the lent memory and nothing behind it; one that is refused
 * leaves it as it was. What is lent for writing may not overlap what is lent for reading in the same call. A row of
 * length 0 may have any pointer, a null one too: it is an empty row, which is COUNT as samples or reflectances, LENGTH as
 * a record, and ROOM where something is to be written, each in its turn among the refusals.
 */
#ifndef QUAILRIBBON_H
#define QUAILRIBBON_H

#include <stddef.h>
#include <stdint.h>

#ifdef __cplusplus
extern "C" {
#endif

enum {
    QR_STEP = 1,         /* the step isn't 1, 2, 5 or 10 */
    QR_START = 2,        /* the start is below 300 or above 380 */
    QR_COUNT = 3,        /* no samples, or the last wavelength is below 780 or above 830 */
    QR_SAMPLE = 4,       /* a sample above 1,000,000 */
    QR_MESOPIC = 5,      /* k above 1000 */
    QR_OBSERVER = 6,     /* neither 2 nor 10; for a research figure neither 32 nor 40 */
    QR_ILLUMINANT = 7,   /* neither 1 (A) nor 2 (D65) */
    QR_REFLECTANCE = 8,  /* a reflectance above 10,000 */
    QR_DARK = 9,         /* x and y, or u' and v', where the three exact sums are 0 */
    QR_EDITION = 10,     /* the record's edition isn't 1 */
    QR_RESERVED = 11,    /* the record's reserved bit is 1 */
    QR_LENGTH = 12,      /* the record isn't as long as its header calls for */
    QR_PADDING = 13,     /* a padding bit of the record is 1 */
    QR_ROOM = 14         /* the lent memory is too short */
    /* 15 is not used */
};

enum {
    QR_MOST_SAMPLES = 531,  /* the most samples that a spectrum has */
    QR_LONGEST_RECORD = 1331,
    QR_LONGEST_REPORT = 99
};

typedef struct { uint32_t number, place, value; } qr_reading;
typedef struct { uint32_t number, place, x, y, z; } qr_xyz_answer;
typedef struct { uint32_t number, place, x, y; } qr_xy_answer;
typedef struct { uint32_t number, place, u, v; } qr_uv_answer;
typedef struct { uint32_t number, place; double x, y, u, v; } qr_chart_answer;
typedef struct { uint32_t number, place, start, step, count; } qr_record_answer;
typedef struct { uint32_t number, place, length; } qr_written;
typedef struct { uint32_t number, place, photopic, scotopic, X, Y, Z, xy_number, x, y; } qr_figures_answer;
typedef struct { uint32_t number, place, X, Y, Z, xy_number, x, y; } qr_panel_figures_answer;

/* Illuminances in millilux: photopic, scotopic, 10° photopic, and mesopic at k thousandths, which is scotopic at 0 and photopic
   at 1000. Each has 683 lumens a watt at 555.017 nm in air, the place of 540 THz. */
qr_reading qr_photopic(uint32_t start, uint32_t step, const uint32_t *samples, size_t count);
qr_reading qr_scotopic(uint32_t start, uint32_t step, const uint32_t *samples, size_t count);
qr_reading qr_photopic_10(uint32_t start, uint32_t step, const uint32_t *samples, size_t count);
qr_reading qr_mesopic(uint32_t k, uint32_t start, uint32_t step, const uint32_t *samples, size_t count);

/* A research figure: illuminance in millilux by the cone-fundamental curve of 2° (observer 32) or of 10° (40). These have no colour. */
qr_reading qr_research(uint32_t observer, uint32_t start, uint32_t step, const uint32_t *samples, size_t count);

/* X, Y, Z in millilux; x, y and u', v' in hundred-thousandths; the chart's point, which is these four as floats. All but X, Y, Z
   are DARK where the three exact sums are 0. Observer 2 or 10. */
qr_xyz_answer qr_xyz(uint32_t observer, uint32_t start, uint32_t step, const uint32_t *samples, size_t count);
qr_xy_answer qr_xy(uint32_t observer, uint32_t start, uint32_t step, const uint32_t *samples, size_t count);
qr_uv_answer qr_uv(uint32_t observer, uint32_t start, uint32_t step, const uint32_t *samples, size_t count);
qr_chart_answer qr_chart(uint32_t observer, uint32_t start, uint32_t step, const uint32_t *samples, size_t count);

/* A panel under illuminant A (1) or D65 (2): X, Y, Z in thousandths, white being 100000; x, y; u', v'; the chart's point. */
qr_xyz_answer qr_panel_xyz(uint32_t observer, uint32_t illuminant, uint32_t start, uint32_t step, const uint16_t *reflectances, size_t count);
qr_xy_answer qr_panel_xy(uint32_t observer, uint32_t illuminant, uint32_t start, uint32_t step, const uint16_t *reflectances, size_t count);
qr_uv_answer qr_panel_uv(uint32_t observer, uint32_t illuminant, uint32_t start, uint32_t step, const uint16_t *reflectances, size_t count);
qr_chart_answer qr_panel_chart(uint32_t observer, uint32_t illuminant, uint32_t start, uint32_t step, const uint16_t *reflectances, size_t count);

/* The report's figures of a light in one call, at observer 2; a panel's X, Y, Z and x, y in one call. Where number is 0,
   xy_number is that of x and y: 0, or 9 where they are dark. */
qr_figures_answer qr_figures(uint32_t start, uint32_t step, const uint32_t *samples, size_t count);
qr_panel_figures_answer qr_panel_figures(uint32_t observer, uint32_t illuminant, uint32_t start, uint32_t step, const uint16_t *reflectances, size_t count);

/* A packed record: read into the lent row of `room` samples, written into the lent `room` bytes. */
qr_record_answer qr_read_record(const uint8_t *bytes, size_t length, uint32_t *samples, size_t room);
qr_written qr_write_record(uint32_t start, uint32_t step, const uint32_t *samples, size_t count, uint8_t *bytes, size_t room);

/* The report of a record as text. A refused record has a report too, as "refused 12": only ROOM is a refusal here. */
qr_written qr_report(const uint8_t *bytes, size_t length, uint8_t *text, size_t room);

#ifdef __cplusplus
}
#endif

#endif
