#!/usr/bin/env python3
"""make_vectors.py ANSWERS NAMES [OUT]: makes OUT/stdin and OUT/stdout from jobs and answers of the Rust crate.

ANSWERS has a folder for each build with jobs and the crate's answers, BUILD/NAME.job and BUILD/NAME.ans; NAMES are
the jobs to take, set off by commas, or `all`. docs/VECTORS.md says how the answers were made.
Departures are found, and our promised line is derived, by rule from the words before the call and the crate's own
line, never from a run of the port."""
import sys, glob, os, collections

KINDS = {"schedule", "delay_nanos", "start", "stop", "cancel", "clear_interrupt", "listen", "driver_listen",
         "load_value", "enable_auto_reload", "reset", "kind_start", "kind_stop", "is_running",
         "is_interrupt_set", "now", "wait"}
WATCHDOG = {"enable", "disable", "feed", "set_timeout", "set_stage_action"}
FLAGS = {  # level confirm divcnt ratio
    "esp32s3": (0, 0, 0, "4/10"), "esp32c3": (0, 1, 1, "4/10"), "esp32c3-t1": (0, 1, 1, "4/10"),
    "esp32c6": (0, 1, 1, "4/10"), "esp32h2": (0, 0, 1, "1/2"), "esp32h2-t1": (0, 0, 1, "1/2"),
    "esp32": (1, 0, 0, "4/10"),
}
EN, AUTORELOAD, ALARM_EN = 1 << 31, 1 << 29, 1 << 10
NAMES = ["overflow-refused", "running-delay-stays-armed", "unreadable-count-refused", "wait-looks-once"]


def num(s):
    return int(s, 16) if s.startswith("0x") else int(s)


class Block:
    def __init__(self, prof, confirm):
        clock, crystal, timers, config, w0, w1, conf = prof
        self.clock, self.crystal, self.timers, self.confirm = clock, crystal, timers, confirm
        w = [0] * 49
        w[0] = w[9] = config
        w[18], w[19], w[29], w[30] = w0, w1, 7, conf
        self.w = w

    def put(self, p, x):
        w = self.w
        if p in (1, 2, 3, 10, 11, 12, 27, 47, 29, 31, 32, 33, 43, 44, 45):
            return
        if p in (8, 17):
            t = p - 8
            w[t + 1], w[t + 2] = w[t + 6], w[t + 7] & 0x3FFFFF
        elif p == 28:
            w[27] &= ~x
        elif p == 48:
            w[47] &= ~x
        elif 18 <= p <= 24:
            if w[25] == 0x50D83AA1:
                if p == 18 and self.confirm:
                    w[18] = x & ~(1 << 22)
                elif p != 24:
                    w[p] = x
        elif p in (34, 36, 38):
            w[p] = x & 0xFFFFF
        else:
            w[p] = x

    def play(self, log):
        for a in log.rstrip("*").split():
            if a[0] == "p":
                p, x = a[1:].split(":")
                self.put(int(p), int(x, 16))


def system_mhz(block, ratio):
    n, d = map(int, ratio.split("/"))
    return block.crystal * n // d // 10**6


def departure(block, ratio, call, answer, log):
    """(name, our answer, our log) where ours departs on purpose, else None. `block` is before the call."""
    f, part = call[0], call[1]
    timer = part[0] == "t"
    base = 9 * int(part[1]) if timer else None
    if answer == "spins":
        if f == "wait":
            assert log == ("g27*" if timer else "g47*"), log
            assert not block.w[27 if timer else 47] >> int(part[1]) & 1
            return "wait-looks-once", "err Unfinished", log[:-1]
        assert log.endswith("g29*"), log
        assert not block.w[29] >> (int(part[1]) if timer else 2) & 1
        return "unreadable-count-refused", "err Unfinished", log[:-1]
    if answer == "panic":
        if f == "now" and timer:
            n = block.w[base] >> 13 & 0xFFFF
            rate = block.clock // (65536 if n == 0 else 2 if n <= 2 else n)
            ticks = block.w[base + 2] << 32 | block.w[base + 1]
            assert ticks * (10**12 // rate) >= 2**64
            return "overflow-refused", "err OutOfRange", log
        assert f in ("schedule", "start", "load_value") and not timer, (call, answer, log)
        assert int(call[2]) * system_mhz(block, ratio) >= 2**64
        assert log.endswith("g%d" % (40 + int(part[1]))), log
        return "overflow-refused", "err InvalidTimeout", log
    if f in ("clear_interrupt", "wait") and timer:
        config = block.w[base]
        if config & EN and not config & AUTORELOAD and config & ALARM_EN:
            tail = "p%d:%08x" % (base, config & ~ALARM_EN)
            assert answer == "ok" and log.endswith(tail), (call, answer, log)
            return "running-delay-stays-armed", "ok", log[:-len(tail)] + "p%d:%08x" % (base, config)
    return None


def job(build, job_lines, ans_lines, out, tally):
    level, confirm, divcnt, ratio = FLAGS[build]
    ans = iter(ans_lines)
    block = None
    for raw in job_lines:
        line = raw.split("#")[0].strip()
        if not line:
            continue
        w = line.split()
        if w[0] == "profile":
            v = list(map(num, w[1:]))
            block = Block(v, confirm)
            out.append("profile %d %d %d %s %s" % (level, confirm, divcnt, ratio, " ".join(w[1:])))
            tally["blocks"] += 1
        elif w[0] == "set":
            p, x = int(w[1]), num(w[2])
            assert not 18 <= p <= 25
            block.w[p] = x
            out.append(line)
        elif w[0] == "chip":
            next(ans)
        elif w[0] == "words":
            got = [int(x, 16) for x in next(ans).split(" -> ")[1].split()]
            assert got == block.w, (build, line)
        else:
            a = next(ans)
            head, rest = a.split(" -> ", 1)
            assert head == line, (head, line)
            answer, log = rest.split(" | ", 1) if " | " in rest else (rest.rstrip(" |"), "")
            if w[0] in WATCHDOG:
                block.play(log)
                continue
            assert w[0] in KINDS, w
            if answer == "nopart":
                continue
            tally["call " + w[0]] += 1
            d = departure(block, ratio, w, answer, log)
            block.play(log)
            if d is None:
                assert answer not in ("panic", "spins"), a
                out.append(a)
                tally["alike"] += 1
            else:
                name, ours, our_log = d
                out.append("departs %s %s => %s | %s" % (name, a, ours, our_log))
                tally[name] += 1
                if name == "running-delay-stays-armed":
                    base = 9 * int(w[1][1])
                    out.append("set %d %#x" % (base, block.w[base]))
    assert next(ans, None) is None


def lines(path):
    with open(path) as f:
        return f.read().splitlines()


def main():
    answers, names = sys.argv[1], sys.argv[2]
    want = None if names == "all" else names.split(",")
    out, total = [], collections.Counter()
    for build in FLAGS:
        for path in sorted(glob.glob(f"{answers}/{build}/*.job")):
            if want is None or os.path.basename(path)[:-4] in want:
                job(build, lines(path), lines(path[:-4] + ".ans"), out, total)
    calls = total["alike"] + sum(total[n] for n in NAMES)
    expected = "".join(f"departs {n} {total[n]}\n" for n in NAMES)
    expected += f"alike {total['alike']}\ncalls {calls}\nblocks {total['blocks']}\n"
    if len(sys.argv) > 3:
        with open(sys.argv[3] + "/stdin", "w") as f:
            f.write("\n".join(out) + "\n")
        with open(sys.argv[3] + "/stdout", "w") as f:
            f.write(expected)
    print(expected, end="")


main()
