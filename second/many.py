"""Prints every answer to 2,000 made inputs, a line an input: what crates/many/stdout holds.

The generator. A state runs from 1 to 2147483646. A draw makes it s * 48271 % 2147483647 and gives that. Input i, of 0 to
1999, begins at i + 1 and throws three draws away. Each d below is the next draw.

1. d: step is STEP[d % 16].
2. d: start is 300 + d % 81, and where d % 13 is 0, START[d // 13 % 4].
3. d: last is 780 + d % 51. count is 401 where step is 0 or start is above last, else (last - start) // step + 1 but at
   most 532; and where d % 11 is 0, COUNT[d // 11 % 4].
4. d: mode is d % 8, and says the sample at place k: 0 and 1: 0; 2: 1000000; 3 and 5: draw % 1000001; 4: draw % 1000;
   6: draw % 41 * 25000; 7: k * 1999 % 1000001. Then, in modes 1 and 5 and where count is not 0, the sample at draw % count
   becomes draw % 1000001 in mode 1, and 1000001 + draw % 5 in mode 5.
5. d: k of the mesopic reading is d % 1100.
6. d: observer is OBSERVER[d % 16], for every answer that takes an observer.
7. d: illuminant is ILLUMINANT[d % 8].

8. d: the record is written where there is room for d % 1332 bytes, and then where there is room for any.
9. d: in a record that is written, one byte is damaged: of its length, the last where d % 4 is 1, the one at
   d // 4 % length where d % 4 is 3, else the one at d // 4 % 3.
10. d: 1 + d % 255 is added to that byte, % 256; and the last d // 255 % 2 bytes are cut off.
11. d: the damaged record is read into a row with room for 531 where d is even, else for d // 2 % 532.

The reflectances are the samples % 10001, in mode 5 % 10007. A float is printed as the number of its 64 bits. The research
reading stands directly after the mesopic one.
"""

import struct

import light

STEP = (1, 2, 5, 10, 1, 2, 5, 10, 1, 2, 5, 10, 1, 2, 3, 0)
START = (299, 381, 0, 4294967295)
COUNT = (0, 1, 40, 532)
OBSERVER = (2, 10, 2, 10, 2, 10, 2, 10, 32, 40, 32, 40, 32, 40, 3, 0)
ILLUMINANT = (1, 2, 1, 2, 1, 2, 0, 3)


class Draws:
    def __init__(self, state):
        self.state = state

    def draw(self):
        self.state = self.state * 48271 % 2147483647
        return self.state


def start_from(d):
    return START[d // 13 % 4] if d % 13 == 0 else 300 + d % 81


def count_from(d, start, step):
    last = 780 + d % 51
    if d % 11 == 0:
        return COUNT[d // 11 % 4]
    if step == 0 or start > last:
        return 401
    return min((last - start) // step + 1, 532)


def sample_at(draws, mode, k):
    if mode < 2:
        return 0
    if mode == 2:
        return 1000000
    if mode == 7:
        return k * 1999 % 1000001
    d = draws.draw()
    if mode == 4:
        return d % 1000
    return d % 41 * 25000 if mode == 6 else d % 1000001


def samples_from(draws, mode, count):
    samples = [sample_at(draws, mode, k) for k in range(count)]
    if mode in (1, 5) and count > 0:
        place = draws.draw() % count
        samples[place] = draws.draw() % 1000001 if mode == 1 else 1000001 + draws.draw() % 5
    return samples


def shown(answer):
    if isinstance(answer, light.Refused):
        return f"!{answer.number}@{answer.place}"
    if isinstance(answer, int):
        return str(answer)
    return ",".join(map(str, answer))


def shown_chart(answer):
    if isinstance(answer, light.Refused):
        return shown(answer)
    if answer == "dark":
        return answer
    return shown([int.from_bytes(struct.pack(">d", x), "big") for x in answer])


def shown_figures(answer):
    if isinstance(answer, light.Refused):
        return shown(answer)
    *readings, colour = answer
    return shown((*readings, *("--" if colour == "dark" else colour)))


def shown_read(record, room):
    answer = light.read_record(record, room)
    if isinstance(answer, light.Refused):
        return shown(answer)
    start, step, samples = answer
    return shown((start, step, len(samples), sum(samples)))


def damaged(draws, record):
    d, e = draws.draw(), draws.draw()
    place = {1: len(record) - 1, 3: d // 4 % len(record)}.get(d % 4, d // 4 % 3)
    other = bytearray(record)
    other[place] = (other[place] + 1 + e % 255) % 256
    return bytes(other[: len(record) - e // 255 % 2])


def shown_record(draws, start, step, samples):
    """The answer where there is little room; the length and the sum of the bytes; read back; and read again, damaged."""
    cramped = light.write_record(start, step, samples, draws.draw() % 1332)
    record = light.write_record(start, step, samples, 1331)
    if isinstance(record, light.Refused):
        return [shown(cramped), shown(record)]
    other = damaged(draws, record)
    d = draws.draw()
    return [
        shown(cramped if isinstance(cramped, light.Refused) else len(cramped)),
        shown((len(record), sum(record))),
        shown_read(record, 531),
        shown_read(other, 531 if d % 2 == 0 else d // 2 % 532),
    ]


def line(i):
    draws = Draws(i + 1)
    for _ in range(3):
        draws.draw()
    step = STEP[draws.draw() % 16]
    start = start_from(draws.draw())
    count = count_from(draws.draw(), start, step)
    mode = draws.draw() % 8
    samples = samples_from(draws, mode, count)
    k = draws.draw() % 1100
    observer = OBSERVER[draws.draw() % 16]
    illuminant = ILLUMINANT[draws.draw() % 8]
    reflectances = [sample % (10007 if mode == 5 else 10001) for sample in samples]
    lit = start, step, samples
    panel = observer, illuminant, start, step, reflectances
    answers = [
        shown(light.photopic(*lit)),
        shown(light.scotopic(*lit)),
        shown(light.photopic_10(*lit)),
        shown(light.mesopic(k, *lit)),
        shown(light.research(observer, *lit)),
        shown(light.xyz(observer, *lit)),
        shown(light.xy(observer, *lit)),
        shown(light.uv(observer, *lit)),
        shown_chart(light.chart(observer, *lit)),
        shown_figures(light.figures(*lit)),
        shown(light.panel_xyz(*panel)),
        shown(light.panel_xy(*panel)),
        shown(light.panel_uv(*panel)),
        shown_chart(light.panel_chart(*panel)),
        shown_figures(light.panel_figures(*panel)),
        *shown_record(draws, *lit),
    ]
    return f"{i}: {' '.join(answers)}"


if __name__ == "__main__":
    for number in range(2000):
        print(line(number))
