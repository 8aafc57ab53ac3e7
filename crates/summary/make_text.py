#!/usr/bin/env python3
"""Writes stdin and stdout: a text of some 300 events and the lines of its months, by a model of its own (document 01, "Events" and
"Month summary"; document 02, T-01).

The first ten events are the paper's example. The price moves within month 14. The last event breaks its form, so the payment after it
is not read."""
import datetime
import random

# Month 0 has day 0 alone, month 1 is a leap February, and month 14 has days 395 to 399.
OPENED, PRICE = datetime.date(2024, 1, 31), 1250
FIELDS = {"pay": ["amount"], "credit": ["amount"], "reverse": ["number"], "charge": ["kind", "amount"], "estimate": ["usage", "wh"],
          "read": ["usage", "wh"], "warn": [], "connect": [], "disconnect": [], "price": ["price"]}


def month(day):
    d = OPENED + datetime.timedelta(days=day)
    return 12 * (d.year - OPENED.year) + d.month - OPENED.month


class Model:
    def __init__(self):
        self.last, self.pays, self.charges, self.days, self.prices = 0, [], [], {}, {0: PRICE}

    def cost(self, u, wh):
        return (wh * self.prices[max(day for day in self.prices if day <= u)] + 50000) // 100000

    def post(self, day, do, *f):
        if day < self.last or day > 399:
            return
        if do in ("pay", "credit", "charge") and not 1 <= f[-1] <= 10000000:
            return
        if do == "charge" and not 1 <= f[0] <= 5:
            return
        if do in ("estimate", "read") and (f[1] > 9999999 or f[0] >= day):
            return
        if do == "pay":
            if len(self.pays) >= 128:
                return
            self.pays.append([day, f[0], False])
        elif do == "reverse":
            if f[0] >= len(self.pays) or self.pays[f[0]][2]:
                return
            self.pays[f[0]][2] = True
        elif do == "charge":
            self.charges.append((day, f[0], f[1]))
        elif do == "estimate":
            if f[0] in self.days:
                return
            self.days[f[0]] = ("e", f[1])
        elif do == "read":
            if self.days.get(f[0], "b")[0] == "m":
                return
            self.days[f[0]] = ("m", f[1])
        elif do == "price":
            self.prices[day] = f[0]
        elif do in ("connect", "disconnect"):
            return  # neither granted nor refused changes a summary; none is the newest event of its day here
        self.last = day

    def line(self, m):
        if not any(month(d) == m for d in range(400)):
            v = [m, 3] + [0] * 15
        else:
            v = [m, 0]
            for back in (False, True):
                amounts = [a for d, a, r in self.pays if month(d) == m and r == back]
                v += [len(amounts), sum(amounts)]
            both = [0, 0]
            for sort in "me":
                used = [(u, wh) for u, (s, wh) in self.days.items() if month(u) == m and s == sort]
                v += [sum(wh for _, wh in used), sum(self.cost(u, wh) for u, wh in used)]
                both = [both[0] + v[-2], both[1] + v[-1]]
            kinds = [sum(a for d, k, a in self.charges if month(d) == m and k == kind) for kind in range(1, 6)]
            v += kinds
            v += [((both[1] + kinds[0] + kinds[1]) * 100000 + both[0] // 2) // both[0], 0] if both[0] else [0, 1]
        keys = "m code kept_count kept_sum reversed_count reversed_sum metered_wh metered_cost estimated_wh estimated_cost kind1 kind2 kind3 kind4 kind5 average missing"
        return " ".join(f"{k}={x}" for k, x in zip(keys.split(), v))


def events():
    yield from [(0, "pay", 6000), (0, "connect"), (2, "estimate", 1, 30000), (3, "read", 1, 32000), (3, "warn"), (3, "charge", 1, 4700),
                (3, "disconnect"), (4, "disconnect"), (5, "pay", 4000), (5, "connect")]
    rng = random.Random(15)
    day = 5
    for _ in range(300):
        day = min(399, day + rng.choice([0, 0, 1, 1, 2, 3]))
        do = rng.choice(["pay", "pay", "reverse", "credit", "charge", "charge", "estimate", "estimate", "read", "read", "read"])
        if 150 <= day < 185 and do in ("estimate", "read"):
            do = "charge"  # a month of charges without Wh
        amount = rng.choice([1, 99, 2500, 4700, 10000000, 10000001, rng.randrange(1, 9000)])
        usage = max(0, day - rng.choice([0, 1, 1, 2, 2, 5, 31]))
        wh = rng.choice([0, 39, 40, 9999999, 10000000, rng.randrange(40000), rng.randrange(40000)])
        if month(usage) == 5:
            wh = 0
        yield {"pay": (day, do, amount), "credit": (day, do, amount), "reverse": (day, do, rng.randrange(70)),
               "charge": (day, do, rng.randrange(7), amount), "estimate": (day, do, usage, wh), "read": (day, do, usage, wh)}[do]
    # month 14; the last read is of a usage day in month 13
    yield from [(395, "pay", 1500), (396, "price", 2500), (396, "reverse", 0), (397, "estimate", 395, 40), (398, "read", 396, 30000),
                (399, "charge", 2, 250), (399, "read", 380, 32000)]


def text(e):
    return f"day={e[0]}\ndo={e[1]}\n" + "".join(f"{k}={v}\n" for k, v in zip(FIELDS[e[1]], e[2:]))


m = Model()
out = f"open={OPENED}\nprice={PRICE}\nconnect=5000\ncutoff=1000\nshare=50\n"
for e in events():
    m.post(*e)
    out += text(e)
out += "day=399\ndo=repay\namount=1\n" + text((399, "pay", 5000))
open("stdin", "w").write(out)
open("stdout", "w").write("".join(m.line(i) + "\n" for i in range(15)))
