"""Small random presets and plays for the references, by gen.py's parts: few sources, destinations and slots, few
frames, without refused calls."""
import common  # puts the oracle's folder on the path
import gen

hx = gen.hx


class Small(gen.Gen):
    def __init__(self, seed, profile=None):
        super().__init__("small %s" % seed, clean=True)
        self.profile = profile or self.profile
        self.taken = set()

    def begin(self, voices=None, frames=None, rate=None):
        r = self.r
        self.voices = r.choice([0, 1, 1, 2, 3, 16, 17, 33]) if voices is None else voices
        self.frames = r.choice([1, 5, 32, 33, 40, 64, 70]) if frames is None else frames
        self.rate = gen.f32(r.choice([64.0, 64.0, 1000.0, 48000.0]) if rate is None else rate)
        self.stride = max(1, (self.voices + 15) // 16) * 16
        self.favourites = [r.randrange(max(self.voices, 1)) for _ in range(3)]
        self.w("canon 1")
        self.w("config", hx(self.rate), self.frames, self.voices)
        for _ in range(2):
            self.add_table()

    def registries(self, sources=None, dests=None, slots=None, control=0.0):
        """Sources, two of them held and global, so that they can be fed; destinations, that part of them at control
        rate at least; how many slots are set."""
        r = self.r
        self.nslots = slots or r.choice([2, 3, 4, 6, 8])
        for _ in range(2):
            self.add_source("held", "g")
        for _ in range(sources or r.randrange(2, 6)):
            self.add_source()
        for _ in range(dests or r.randrange(1, 6)):
            self.add_dest(rate="control" if control and self.p(control) else None)

    def preset(self):
        for n in range(self.nslots):
            self.slot(n)
        if self.p(0.3):
            self.chains()
        if self.p(0.3):
            self.note_curves()
        return self.compile()

    def engine(self, program=None):
        self.w("engine")
        self.engine_ns = len(self.sources)
        if program:
            self.w("swap", program)
        self.rebind()

    def events(self, most):
        for _ in range(self.r.randrange(most + 1)):
            self.event()

    def text(self):
        return "\n".join(self.lines) + "\n"
