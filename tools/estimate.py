"""How long the rest of a build takes: by the table tools/minutes, scaled by what has passed."""
import os

# Minutes and bytes of a crate that the table hasn't.
OF_A_NEW_CRATE = 3.0, 3e9
# What of a further job is gained, and how much of the table weighs against what has passed.
GAIN, MINUTES_OF_TRUST = 0.5, 2.0
ROUNDS = 8


def table(path):
    """Minutes of processor time and bytes of memory by crate."""
    with open(path, encoding="utf-8") as lines:
        rows = (line.partition("#")[0].split() for line in lines)
        return {row[0]: (float(row[1]), 1e9 * float(row[2])) for row in rows if row}


class Estimate:
    """The order in which crates are proved, gone through without proving them."""

    def __init__(self, below, crates, rows, lanes, processors):
        self.below = {it: [lower for lower in below[it] if lower in crates] for it in crates}
        self.minutes = {it: rows.get(it, OF_A_NEW_CRATE)[0] for it in crates}
        self.lanes, self.processors = lanes, processors
        above = {it: [upper for upper in crates if it in self.below[upper]] for it in crates}
        self.rank = {}
        for it in crates:
            self.rank_of(it, above)
        self.whole = self.left({}, ())

    def rank_of(self, crate, above):
        """The minutes of the longest chain from a crate upwards."""
        if crate not in self.rank:
            self.rank[crate] = self.minutes[crate] + max((self.rank_of(it, above) for it in above[crate]), default=0.0)
        return self.rank[crate]

    def left(self, running, done):
        """Minutes by the table that the rest takes, where these crates have run for so many minutes and those are done."""
        done, passed = set(done), 0.0
        rest = {it: max(0.1 * self.minutes[it], self.minutes[it] - had) for it, had in running.items()}
        waiting = sorted((it for it in self.minutes if it not in done and it not in rest), key=lambda it: -self.rank[it])
        while waiting or rest:
            for it in [it for it in waiting if all(lower in done for lower in self.below[it])][: self.lanes - len(rest)]:
                waiting.remove(it)
                rest[it] = self.minutes[it]
            speed = self.speed(len(rest))
            step = min(rest.values()) / speed
            passed += step
            rest = {it: much - step * speed for it, much in rest.items()}
            done |= {it for it, much in rest.items() if much < 1e-9}
            rest = {it: much for it, much in rest.items() if much >= 1e-9}
        return passed

    def speed(self, running):
        """Minutes of a crate's work in a minute, where so many run beside each other."""
        share = self.processors / max(1, running)
        return share if share <= 1 else 1 + GAIN * min(share - 1, 1.5)

    def more(self, running, done, passed):
        """Minutes that the rest takes, where so many have passed, and each of the running ones has run for so many."""
        speed, scale = self.speed(len(running)), 1.0
        # what a running one has done depends on the scale, and that on what all have done
        for _ in range(ROUNDS):
            left = self.left({it: had * speed / scale for it, had in running.items()}, done)
            scale = (passed + MINUTES_OF_TRUST) / (self.whole - left + MINUTES_OF_TRUST)
        return left * scale


def told(minutes):
    """A number of minutes as one says it."""
    return f"about {round(minutes)} minutes" if minutes >= 1.5 else "about a minute"
