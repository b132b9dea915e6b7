"""What the devices of the evaluation meet: sensors that change in time, and supplies of power. All of it follows from seeds."""
import math
import random

HORIZON = 60_000  # from this tick on sensors stay as they are
OFF = 1_000  # ticks without power behind one step,
APART = 200  # and between periods of one length
ENDLESS = 10**7

# Of each application: its sensors with mean, spread, and how long a mode lasts in which MODE is added (0: there is none).
MODE = 40
SENSORS = {
    "activity": {"ax": (2, 12, 6000), "ay": (2, 12, 6000), "az": (2, 12, 6000)},
    "cem": {"temp": (60, 40, 0)},
    "greenhouse": {"ready": (1, 1, 0), "temp": (280, 60, 0), "hum": (300, 150, 0), "soil": (330, 120, 0)},
    "photo": {"light": (350, 250, 0)},
    "send_photo": {"light": (350, 250, 0), "volt": (30, 8, 0), "answer": (-2, 2, 0)},
    "tire": {"pressure": (195, 40, 0), "temp": (40, 20, 0), "motion": (1, 0.6, 0)},
}


def file_of(head, rows):
    return head + "\n" + "".join(",".join(map(str, row)) + "\n" for row in rows)


def sensor_rows(application, sensor, seed):
    """Yields the rows of a sensor: it wanders about its mean, and takes a new value every few ticks."""
    mean, spread, lasts = SENSORS[application][sensor]
    rng = random.Random(f"{application} {sensor} {seed}")
    tick, value, is_moved = 0, mean + spread * rng.gauss(0, 1), rng.random() < 0.5
    while tick < HORIZON:
        yield tick, sensor, round(value) + MODE * (is_moved and lasts > 0)
        gap = rng.randint(1, 40)
        tick += gap
        value += 0.3 * (mean - value) + 0.7 * spread * rng.gauss(0, 1)
        is_moved ^= lasts > 0 and rng.random() < gap / lasts


def sensor_file(application, seed):
    rows = [row for sensor in SENSORS[application] for row in sensor_rows(application, sensor, seed)]
    return file_of("time,sensor,value", sorted(rows, key=lambda row: row[0]))


def still_file(application, place):
    """Returns a sensor file in which each sensor shows one value: its mean, or one far from it."""
    rng = random.Random(f"{application} still {place}")
    away = [0 if place == 0 else round(rng.choice((-2, 2)) * spread) for _, spread, _ in SENSORS[application].values()]
    rows = [(0, sensor, mean + far) for (sensor, (mean, _, _)), far in zip(SENSORS[application].items(), away)]
    return file_of("time,sensor,value", rows)


def power_file(rows):
    return file_of("on,off", rows)


def steady():
    """Power throughout."""
    return [(ENDLESS, 0)]


def one_outage(step):
    """Power fails once, behind a step."""
    return [(step, OFF), (ENDLESS, 0)]


def constant(on, rng, periods):
    """Periods of one length; the program begins somewhere in the first."""
    return [(rng.randint(1, on), APART)] + [(on, APART)] * periods


def radio(rng, capacity):
    """Yields lengths and powers of a radio field: bursts that fade, and pauses."""
    length = max(4, capacity // 4)
    while True:
        for _ in range(rng.randint(4, 24)):
            yield length, 0.2 * rng.expovariate(1)
        yield length * rng.randint(4, 24), 0.01


def light(rng, capacity):
    """Yields lengths and powers of a light that comes and goes slowly, with clouds."""
    length, at, cloud = max(4, capacity // 2), rng.random(), False
    while True:
        yield length, 0.02 + 0.6 * math.sin(math.pi * at) ** 2 * (0.15 if cloud else 1.0)
        at += 1 / 120
        cloud ^= rng.random() < 0.1


SOURCES = {"radio": radio, "light": light}


class Capacitor:
    """A capacitor that holds so many steps. What comes in each tick is counted in what a step takes."""

    def __init__(self, capacity, stored, segments):
        self.capacity, self.stored, self.segments = capacity, stored, segments
        self.left, self.power = next(segments)

    def spend(self, ticks, gain):
        """Lets ticks go by, of those that are left of the present segment."""
        self.left -= ticks
        self.stored = min(self.capacity, self.stored + ticks * gain)
        if not self.left:
            self.left, self.power = next(self.segments)
        return ticks

    def drain(self):
        """Runs the device until the capacitor is empty, and returns for how many steps."""
        on = 0
        while on < 10**5:
            can = int(self.stored / (1 - self.power)) if self.power < 1 else self.left
            runs_dry = can < self.left
            on += self.spend(min(self.left, can), self.power - 1)
            if runs_dry:
                break
        return on

    def fill(self):
        """Waits until the capacitor is full, and returns for how many ticks."""
        off = 0
        while self.stored < self.capacity:
            off += self.spend(min(self.left, math.ceil((self.capacity - self.stored) / self.power)), self.power)
        return off


def harvested(source, rng, capacity, periods):
    """The periods of a device with a capacitor that holds `capacity` steps.

    The device goes on when the capacitor is full, and off when it is empty but for what a checkpoint takes. The program
    begins somewhere in a charge.
    """
    segments = SOURCES[source](rng, capacity)
    capacitor = Capacitor(capacity, capacity * rng.random(), segments)
    return [(capacitor.drain(), capacitor.fill()) for _ in range(periods)]
