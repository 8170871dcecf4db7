/* Calls every function of the C library, on the example of 460 nm and on a white panel, and on a refusal of each. */
#include <quailribbon.h>
#include <stdio.h>
#include <string.h>

static unsigned calls, wrong;

static void expect(const char *what, int as_expected) {
    calls++;
    if (!as_expected) {
        wrong++;
        printf("boundary: %s is not as expected\n", what);
    }
}

static uint32_t samples[401];
static uint16_t white[471];

static void lights(void) {
    qr_reading photopic = qr_photopic(380, 1, samples, 401);
    expect("qr_photopic", photopic.number == 0 && photopic.place == 0 && photopic.value == 40980);
    expect("qr_scotopic", qr_scotopic(380, 1, samples, 401).value == 963972);
    expect("qr_photopic_10", qr_photopic_10(380, 1, samples, 401).value == 87638);
    expect("qr_mesopic", qr_mesopic(500, 380, 1, samples, 401).value == 305508);
    expect("mesopic at 0 is scotopic", qr_mesopic(0, 380, 1, samples, 401).value == 963972);
    expect("mesopic at 1000 is photopic", qr_mesopic(1000, 380, 1, samples, 401).value == 40980);
    qr_reading research = qr_research(32, 380, 1, samples, 401);
    expect("qr_research", research.number == 0 && research.place == 0 && research.value == 58187);
    expect("qr_research of 10°", qr_research(40, 380, 1, samples, 401).value == 96637);
    qr_xyz_answer xyz = qr_xyz(2, 380, 1, samples, 401);
    expect("qr_xyz", xyz.number == 0 && xyz.x == 198617 && xyz.y == 40980 && xyz.z == 1140066);
    qr_xy_answer xy = qr_xy(2, 380, 1, samples, 401);
    expect("qr_xy", xy.number == 0 && xy.x == 14396 && xy.y == 2970);
    qr_uv_answer uv = qr_uv(2, 380, 1, samples, 401);
    expect("qr_uv", uv.number == 0 && uv.place == 0 && uv.u == 18766 && uv.v == 8712);
    uv = qr_uv(10, 380, 1, samples, 401);
    expect("qr_uv for observer 10", uv.number == 0 && uv.u == 16205 && uv.v == 15464);
    qr_chart_answer chart = qr_chart(2, 380, 1, samples, 401);
    expect("qr_chart", chart.number == 0 && chart.place == 0 && chart.x == 14396 / 100000.0 && chart.y == 2970 / 100000.0 &&
                           chart.u == 18766 / 100000.0 && chart.v == 8712 / 100000.0);
    qr_figures_answer f = qr_figures(380, 1, samples, 401);
    expect("qr_figures", f.number == 0 && f.photopic == 40980 && f.scotopic == 963972 && f.X == 198617 && f.Y == 40980 &&
                             f.Z == 1140066 && f.xy_number == 0 && f.x == 14396 && f.y == 2970);
}

static void panels(void) {
    qr_xyz_answer xyz = qr_panel_xyz(2, 2, 360, 1, white, 471);
    expect("qr_panel_xyz", xyz.number == 0 && xyz.x == 95047 && xyz.y == 100000 && xyz.z == 108883);
    xyz = qr_panel_xyz(2, 1, 380, 1, white, 401);
    expect("a white panel from 380 to 780", xyz.number == 0 && xyz.x == 109850 && xyz.y == 100000 && xyz.z == 35585);
    qr_xy_answer xy = qr_panel_xy(2, 2, 360, 1, white, 471);
    expect("qr_panel_xy", xy.number == 0 && xy.x == 31273 && xy.y == 32902);
    qr_uv_answer uv = qr_panel_uv(2, 2, 360, 1, white, 471);
    expect("qr_panel_uv", uv.number == 0 && uv.place == 0 && uv.u == 19784 && uv.v == 46834);
    uv = qr_panel_uv(10, 1, 360, 1, white, 471);
    expect("qr_panel_uv for observer 10, under A", uv.number == 0 && uv.u == 25896 && uv.v == 52425);
    qr_chart_answer chart = qr_panel_chart(2, 2, 360, 1, white, 471);
    expect("qr_panel_chart", chart.number == 0 && chart.place == 0 && chart.x == 31273 / 100000.0 && chart.y == 32902 / 100000.0 &&
                                 chart.u == 19784 / 100000.0 && chart.v == 46834 / 100000.0);
    qr_panel_figures_answer f = qr_panel_figures(2, 2, 360, 1, white, 471);
    expect("qr_panel_figures", f.number == 0 && f.place == 0 && f.X == 95047 && f.Y == 100000 && f.Z == 108883 &&
                                   f.xy_number == 0 && f.x == 31273 && f.y == 32902);
    static const uint16_t black[471];
    f = qr_panel_figures(10, 1, 360, 1, black, 471);
    expect("a black panel's figures", f.number == 0 && f.X == 0 && f.Y == 0 && f.Z == 0 && f.xy_number == QR_DARK &&
                                          f.x == 0 && f.y == 0);
}

static void records(void) {
    uint8_t record[QR_LONGEST_RECORD], text[QR_LONGEST_REPORT];
    uint32_t back[QR_MOST_SAMPLES];
    qr_written written = qr_write_record(380, 1, samples, 401, record, sizeof record);
    expect("qr_write_record", written.number == 0 && written.length == 1006 && memcmp(record, "\x12\x83\x22", 3) == 0);
    qr_record_answer read = qr_read_record(record, written.length, back, QR_MOST_SAMPLES);
    expect("qr_read_record", read.number == 0 && read.start == 380 && read.step == 1 && read.count == 401 &&
                                 memcmp(back, samples, sizeof samples) == 0);
    qr_written report = qr_report(record, written.length, text, sizeof text);
    const char *page = "photopic 40980\nscotopic 963972\nX 198617\nY 40980\nZ 1140066\nx 0.14396\ny 0.02970\n";
    expect("qr_report", report.number == 0 && report.length == strlen(page) && memcmp(text, page, strlen(page)) == 0);
    report = qr_report(record, 2, text, sizeof text);
    expect("qr_report of a refused record", report.number == 0 && report.length == 11 && memcmp(text, "refused 12\n", 11) == 0);
}

static void refusals(void) {
    uint8_t record[QR_LONGEST_RECORD], text[1];
    uint32_t faulty[401] = {0};
    faulty[7] = 1000001;
    qr_reading refused = qr_photopic(380, 1, faulty, 401);
    expect("SAMPLE", refused.number == QR_SAMPLE && refused.place == 7 && refused.value == 0);
    expect("STEP", qr_scotopic(380, 3, samples, 401).number == QR_STEP);
    expect("START", qr_photopic_10(381, 1, samples, 401).number == QR_START);
    expect("MESOPIC", qr_mesopic(1001, 380, 1, samples, 401).number == QR_MESOPIC);
    expect("OBSERVER", qr_xyz(3, 380, 1, samples, 401).number == QR_OBSERVER);
    qr_reading no_research = qr_research(2, 380, 3, samples, 401);
    expect("OBSERVER of a research figure", no_research.number == QR_OBSERVER && no_research.place == 0 && no_research.value == 0);
    expect("OBSERVER of X, Y, Z for 32", qr_xyz(32, 380, 1, samples, 401).number == QR_OBSERVER);
    expect("COUNT", qr_figures(380, 1, samples, 400).number == QR_COUNT);
    qr_chart_answer no_chart = qr_chart(3, 380, 1, samples, 401);
    expect("OBSERVER of a chart", no_chart.number == QR_OBSERVER && no_chart.place == 0 && no_chart.x == 0.0 &&
                                      no_chart.y == 0.0 && no_chart.u == 0.0 && no_chart.v == 0.0);
    samples[80] = 0;
    expect("DARK", qr_xy(2, 380, 1, samples, 401).number == QR_DARK);
    qr_uv_answer no_uv = qr_uv(2, 380, 1, samples, 401);
    expect("dark u' and v'", no_uv.number == QR_DARK && no_uv.place == 0 && no_uv.u == 0 && no_uv.v == 0);
    qr_chart_answer dark = qr_chart(2, 380, 1, samples, 401);
    expect("a dark chart", dark.number == QR_DARK && dark.place == 0 && dark.x == 0.0 && dark.y == 0.0 && dark.u == 0.0 &&
                               dark.v == 0.0);
    qr_figures_answer unlit = qr_figures(380, 1, samples, 401);
    expect("dark figures", unlit.number == 0 && unlit.xy_number == QR_DARK && unlit.x == 0 && unlit.y == 0);
    expect("ILLUMINANT", qr_panel_xyz(2, 3, 360, 1, white, 471).number == QR_ILLUMINANT);
    white[470] = 10001;
    qr_xy_answer panel = qr_panel_xy(2, 1, 360, 1, white, 471);
    expect("REFLECTANCE", panel.number == QR_REFLECTANCE && panel.place == 470);
    no_uv = qr_panel_uv(2, 1, 360, 1, white, 471);
    expect("REFLECTANCE of u' and v'", no_uv.number == QR_REFLECTANCE && no_uv.place == 470 && no_uv.u == 0 && no_uv.v == 0);
    qr_panel_figures_answer f = qr_panel_figures(2, 1, 360, 1, white, 471);
    expect("REFLECTANCE of figures", f.number == QR_REFLECTANCE && f.place == 470 && f.X == 0 && f.Y == 0 && f.Z == 0 &&
                                         f.xy_number == 0 && f.x == 0 && f.y == 0);
    expect("ROOM", qr_write_record(380, 1, samples, 401, record, 1005).number == QR_ROOM);
    expect("LENGTH", qr_read_record(record, 2, faulty, 401).number == QR_LENGTH);
    expect("ROOM of a report", qr_report(record, 0, text, sizeof text).number == QR_ROOM);
}

/* A null pointer with length 0 is an empty row, in every place where a row is lent. */
static void empty_rows(void) {
    uint8_t record[QR_LONGEST_RECORD];
    expect("STEP before an empty row", qr_photopic(380, 3, NULL, 0).number == QR_STEP);
    expect("an empty light", qr_photopic(380, 1, NULL, 0).number == QR_COUNT);
    expect("empty figures", qr_figures(380, 1, NULL, 0).number == QR_COUNT);
    expect("an empty panel", qr_panel_xyz(2, 1, 380, 1, NULL, 0).number == QR_COUNT);
    expect("an empty panel's figures", qr_panel_figures(2, 1, 380, 1, NULL, 0).number == QR_COUNT);
    expect("an empty record", qr_read_record(NULL, 0, NULL, 0).number == QR_LENGTH);
    expect("an empty light to be written", qr_write_record(380, 1, NULL, 0, record, sizeof record).number == QR_COUNT);
    expect("no room for a record", qr_write_record(380, 1, samples, 401, NULL, 0).number == QR_ROOM);
    qr_written written = qr_write_record(380, 1, samples, 401, record, sizeof record);
    expect("no room for the samples", qr_read_record(record, written.length, NULL, 0).number == QR_ROOM);
    expect("no room for a report", qr_report(NULL, 0, NULL, 0).number == QR_ROOM);
}

int main(void) {
    samples[80] = 1000000;
    for (int i = 0; i < 471; i++) white[i] = 10000;
    lights();
    panels();
    records();
    refusals();
    empty_rows();
    printf("boundary: %u calls, %u not as expected\n", calls, wrong);
    return wrong != 0;
}
