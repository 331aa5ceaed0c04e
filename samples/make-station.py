#!/usr/bin/env python3
"""Writes a whole station as N-Triples, the same bytes each time:

    python3 samples/make-station.py > samples/whole-station.nt

and tells whether a file is legal by paper 01, fits the shell's tables and has the right marks:

    python3 samples/make-station.py --check samples/whole-station.nt
"""
import re
import sys

STATEMENTS, RESOURCES, TEXT = 16384, 8192, 524288  # the shell's tables

FUNCTIONS = {
    "21": "distance", "25": "synchronism check", "27": "undervoltage", "46": "negative sequence", "49": "thermal overload",
    "50": "instantaneous overcurrent", "50BF": "breaker failure", "51": "time overcurrent", "51N": "earth fault", "59": "overvoltage",
    "60": "unbalance of the bank", "63": "gas in the transformer", "64": "restricted earth fault", "67": "directional overcurrent",
    "67N": "directional earth fault", "68": "power swing blocking", "79": "reclosing", "85": "carrier", "87B": "busbar differential",
    "87L": "line differential", "87T": "transformer differential",
}
# Diameters of 400 kV, one and a half breakers a circuit: what stands on side 1 and side 3; breaker 2 is the tie.
DIAMETERS = [("Northfield", "T1"), ("Easton", "T2"), ("Castle Hill", "Redmoor"), ("Thornbury 1", "T3"), ("Sandford", "Thornbury 2")]
FEEDERS = ["Mill Road", "Quarry", "Riverside", "Hospital", "Water Works", "Harbour", "Brewery", "Steelworks 1", "Steelworks 2", "Airport",
           "Railway", "Old Town", "Data Centre 1", "Data Centre 2"]
# How far the work is. Trip circuits of these breakers are not wired; contacts of these bays are timed in part, or not at all.
UNWIRED = {"D5.2", "D5.3", "E19", "E20"}
PARTLY = {"D4", "E15", "E16", "E17"}
UNTIMED = {"D5", "E18", "E19", "E20"}
OPEN_CONTACTS = {"21.4", "21.6", "21.10", "24.3"}
MODELS = {"LD7": "line differential and distance", "LZ5": "distance", "TD6": "transformer differential", "BC3": "breaker relay",
          "BB9": "busbar protection", "OC4": "overcurrent", "CP2": "capacitor bank"}
BUSBARS = {1: "BB400A", 2: "BB400B", 3: "BB132A", 4: "BB132B"}  # busbar protection: relays and their panels
PEOPLE = ["M. Hale", "R. Osei", "T. Lindqvist"]


def mix(*parts):
    """A number that looks arbitrary and is the same each time."""
    value = 2166136261
    for byte in "/".join(map(str, parts)).encode():
        value = (value ^ byte) * 16777619 % 2 ** 32
    return value >> 7


def en(text):
    return f'"{text}"@en'


def of(value, unit):
    return f'"{value}"^^<t:{unit}>'


class Station:
    def __init__(self):
        self.lines, self.triples = [], {}
        self.relays = 0
        self.used = {}  # the last number given on a strip, in a cable, of a relay's inputs

    def note(self, text):
        self.lines.append("# " + text)

    def say(self, subject, *pairs):
        for predicate, thing in pairs:
            triple = subject, f"<p:{predicate}>", thing
            if triple not in self.triples:
                self.triples[triple] = None
                self.lines.append(" ".join(triple) + " .")

    def count(self, what):
        self.used[what] = self.used.get(what, 0) + 1
        return self.used[what]

    # Primary equipment.

    def breaker(self, name, bay, label, kv):
        q = f"<q:{name}>"
        self.say(q, ("in", f"<bay:{bay}>"), ("kind", "<k:breaker>"), ("label", en(label)), ("opens", of(20 if kv == 400 else 35, "ms")),
                 ("serial", f'"{kv // 4}-{mix(name) % 90000 + 10000}"'))
        self.say(f"<cubicle:{name}>", ("in", f"<bay:{bay}>"), ("kind", "<k:cubicle>"))
        for n in 1, 2:
            self.say(f"<tc:{name}.{n}>", ("of", q), ("battery", f"<battery:{n}>"))
        self.say(f"<cc:{name}>", ("of", q), ("battery", "<battery:1>"))

    def disconnector(self, name, bay, label, kind="disconnector"):
        self.say(f"<d:{name}>", ("in", f"<bay:{bay}>"), ("kind", f"<k:{kind}>"), ("label", en(label)))

    def current_transformer(self, name, bay, ratio):
        ct = f"<ct:{name}>"
        self.say(ct, ("in", f"<bay:{bay}>"), ("kind", "<k:current-transformer>"), ("ratio", f'"{ratio}"'))
        for n, kind in enumerate(["5P20", "5P20", "PX", "0.2S"], 1):
            self.say(f"<ct:{name}.{n}>", ("core-of", ct), ("class", f'"{kind}"'))

    def voltage_transformer(self, name, place, kv):
        self.say(f"<vt:{name}>", ("at", place), ("kind", "<k:voltage-transformer>"), ("ratio", f'"{kv}000/110"'), ("class", '"3P"'))

    # Relays. Outputs: key, use, target, nominal ms. Elements: name, function, settings, keys of the outputs driven.

    def relay(self, bay, guards, label, model, measures, signals, outputs, elements):
        self.relays += 1
        n = self.relays
        r, panel = f"<r:{n}>", f"<panel:{bay}>"
        self.note(f"relay {n}: {label}")
        self.say(r, ("in", f"<bay:{bay}>" if bay[0] in "DE" else "<st:Brackwater>"), ("kind", "<k:relay>"), ("label", en(label)),
                 ("model", f"<model:{model}>"), ("panel", panel), ("serial", f'"{model}-{mix(n, model) % 9000000 + 1000000}"'),
                 ("firmware", f'"{4 + n % 2}.{mix(n) % 6}"'), *[("guards", g) for g in guards], *[("measures", m) for m in measures])
        month = 3 + n * 7 // 86
        sheet, report = f"<sheet:{n}>", f"<report:{n}>"
        draft = bay in UNTIMED
        self.say(r, ("sheet", sheet))
        self.say(sheet, ("issue", f'"{"ABC"[mix("issue", n) % 3]}"'), ("state", "<s:draft>" if draft else "<s:approved>"),
                 ("date", of(f"2026-{month:02}-{mix('sheet', n) % 28 + 1:02}", "date")), ("by", f'"{PEOPLE[n % 3]}"'))
        contacts, timed = {}, 0
        for k, (key, use, target, nominal) in enumerate(outputs, 1):
            c = contacts[key] = f"<c:{n}.{k}>"
            self.say(r, ("contact", c))
            self.say(c, ("use", en(use)), ("nominal", of(nominal, "ms")), ("out", f"<x:r{n}.X2:{k}>"))
            name = c[3:-1]
            open_ = name in OPEN_CONTACTS or bay in UNTIMED or bay in PARTLY and mix("open", name) % 3 == 0
            if not open_:
                timed += 1
                tenths = 10 * nominal - 14 + mix("ms", name) % 17 + (25 if mix("late", name) % 89 == 0 else 0)
                late = tenths > 10 * nominal + 10
                self.say(c, ("measured", of(tenths / 10, "ms")), ("report", report), ("verdict", "<s:late>" if late else "<s:pass>"))
                if late:
                    self.say(f"_:remark{self.count('remark')}", ("about", c), ("by", f'"{PEOPLE[(n + 1) % 3]}"'),
                             ("text", en(f'{tenths / 10} ms at \\"{use}\\", to be timed again')))
            self.wire(n, k, bay, target)
        if timed:
            self.say(report, ("on", r), ("date", of(f"2026-{month + 1:02}-{mix('report', n) % 28 + 1:02}", "date")),
                     ("by", f'"{PEOPLE[(n + 1) % 3]}"'), ("test-set", f"<set:{n % 2 + 1}>"), ("contacts", of(timed, "count")))
        for name, function, settings, driven in elements:
            e = f"<e:{n}.{name}>"
            self.say(r, ("element", e))
            self.say(e, ("function", f"<f:{function}>"), *settings, *[("drives", contacts[key]) for key in driven])
        for signal in signals:
            self.input(n, signal)

    def input(self, n, signal):
        k = self.count(("input", n))
        self.say(f"<r:{n}>", ("input", f"<i:{n}.{k}>"))
        self.say(f"<i:{n}.{k}>", ("signals", en(signal)))
        self.say(f"<x:r{n}.X1:{k}>", ("enters", f"<i:{n}.{k}>"))
        return f"<x:r{n}.X1:{k}>"

    def wire(self, n, k, bay, target):
        """From contact k of relay n to a coil of a breaker or to an input of a relay, by a core of a cable."""
        if target is None:
            return
        kind, end, coil = target
        if kind == "start":
            far, place = self.input(end, f"start from relay {n}"), f"<panel:{coil}>"
        else:
            if end in UNWIRED:
                return
            far, place = f"<x:q{end}.X5:{self.count(('X5', end))}>", f"<cubicle:{end}>"
            self.say(far, ("coil", f"<cc:{end}>" if kind == "close" else f"<tc:{end}.{coil}>"))
            if kind == "trip":
                self.say(f"<r:{n}>", ("trips", f"<q:{end}>"))
        if ("cable", n, place) not in self.used:
            self.used["cable", n, place] = m = self.count(("cables", n))
            self.say(f"<w:{n}.{m}>", ("from", f"<panel:{bay}>"), ("to", place), ("size", '"7x2.5"' if kind != "start" else '"4x1.5"'),
                     ("length", of((mix("length", place) % 18 + 3) * 10 if kind != "start" else 12, "m")))
        cable = f"<w:{n}.{self.used['cable', n, place]}>"
        self.say(f"<x:r{n}.X2:{k}>", ("wire", far), ("cable", cable), ("core", f'"{self.count(("core", cable))}"'))


def setting(name, value, unit):
    return name, of(value, unit)


def delay(ms):
    return "delay", of(ms, "ms")


def signals_out():
    return [("alarm", "general trip alarm", None, 10), ("life", "relay healthy", None, 15)]


def breaker_signals(names):
    return [f"breaker {name} closed" for name in names]


def line_relays(s, bay, names, starts, label, vt):
    """Main 1 and main 2 of a line; starts: the relay that has each breaker's failure function."""
    reach = 14 + mix("reach", label) % 9
    for main in 1, 2:
        trips = [(f"t{i}", f"trip {q}, coil {main}", ("trip", q, main), 5) for i, q in enumerate(names)]
        bf = [(f"b{i}", f"start breaker failure {q}", ("start", starts[i], bay), 5) for i, q in enumerate(names)]
        keys, bfs = [k for k, *_ in trips], [k for k, *_ in bf]
        more = [("carrier", "carrier send", None, 5), ("inter", "intertrip send", None, 5),
                ("ar", "start reclosing", ("start", starts[0], bay), 8)] + [("block", "block reclosing", None, 8)] * (main == 1)
        zones = [(f"Z{z}", "21", [setting("reach", reach * f / 10, "ohm"), delay(ms)], keys + bfs + also)
                 for z, f, ms, also in [(1, 8, 0, ["ar", "carrier"]), (2, 12, 400, ["carrier"]), (3, 20, 1000, [])]]
        elements = zones + [("67N", "67N", [setting("pickup", 200, "A"), delay(1500)], keys + bfs + ["alarm"]),
                            ("85", "85", [delay(0)], keys + ["carrier"])]
        if main == 1:
            elements += [("87L", "87L", [setting("pickup", 400, "A"), delay(0)], keys + bfs + ["ar", "inter", "alarm"]),
                         ("68", "68", [setting("pickup", reach * 2, "ohm")], ["block"])]
        else:
            elements += [("59", "59", [setting("pickup", 460, "kV"), delay(2000)], keys + ["inter", "alarm"])]
        s.relay(bay, [f"<q:{q}>" for q in names], f"{label}, main {main}", "LD7" if main == 1 else "LZ5",
                [f"<ct:{q}.{main}>" for q in names] + [f"<vt:{vt}>"],
                breaker_signals(names) + ["voltage transformer fuse", "carrier received"],
                trips + bf + more + signals_out(), elements)


def transformer_relays(s, bay, names, starts, label, low):
    """Main 1 and main 2 of a transformer, which trip both sides."""
    number = int(label[-1])
    for main in 1, 2:
        trips = [(f"t{i}", f"trip {q}, coil {main}", ("trip", q, main), 5) for i, q in enumerate(names + [low])]
        bf = [(f"b{i}", f"start breaker failure {q}", ("start", starts[i], bay if i < len(names) else low), 5)
              for i, q in enumerate(names + [low])]
        keys = [k for k, *_ in trips + bf]
        elements = [("87T", "87T", [setting("pickup", 120 + 20 * number, "A"), delay(0)], keys + ["alarm"]),
                    ("51", "51", [setting("pickup", 650, "A"), delay(1800)], keys + ["alarm"])]
        if main == 1:
            elements += [("63", "63", [delay(0)], keys + ["alarm"]), ("49", "49", [setting("pickup", 110, "percent")], ["alarm"])]
        else:
            elements += [("64", "64", [setting("pickup", 60, "A"), delay(0)], keys + ["alarm"]),
                         ("51N", "51N", [setting("pickup", 90, "A"), delay(2500)], keys)]
        s.relay(bay, [f"<q:{q}>" for q in names + [low]], f"transformer {label}, main {main}", "TD6",
                [f"<ct:{q}.{main}>" for q in names] + [f"<ct:{low}.{main}>"],
                breaker_signals(names + [low]) + ["gas relay, warning", "gas relay, trip", "oil temperature", "pressure relief"],
                trips + bf + signals_out(), elements)


def breaker_relay(s, bay, q, neighbours, busbars, vt, label, more, model="BC3", pickup=200):
    """Breaker failure of one breaker: trips it again on both coils, then its neighbours, by busbar protection the rest of the busbar;
    closing with synchronism check."""
    outputs = [("re1", f"trip again {q}, coil 1", ("trip", q, 1), 5), ("re2", f"trip again {q}, coil 2", ("trip", q, 2), 5)]
    outputs += [(f"n{i}", f"breaker failure {q}, trip {x}", ("trip", x, 2), 5) for i, x in enumerate(neighbours)]
    outputs += [(f"bb{n}", f"breaker failure {q}, to busbar protection", ("start", n, BUSBARS[n]), 5) for n in busbars]
    outputs += [("close", f"close {q}", ("close", q, 0), 10), ("inter", "intertrip send", None, 5)] + signals_out()
    others = [f"n{i}" for i in range(len(neighbours))] + [f"bb{n}" for n in busbars]
    elements = [("50BF.1", "50BF", [setting("pickup", pickup, "A"), delay(50)], ["re1", "re2"]),
                ("50BF.2", "50BF", [setting("pickup", pickup, "A"), delay(150)], others + ["inter", "alarm"]),
                ("25", "25", [setting("angle", 20, "deg"), setting("difference", 10, "percent")], ["close"]),
                *[(name, f, sets, ["re1", "alarm"]) for name, f, sets in more]]
    s.relay(bay, [f"<q:{q}>"], label, model, [f"<ct:{q}.2>", f"<vt:{vt}>"],
            breaker_signals([q]) + ["spring charged", "gas pressure low"], outputs, elements)


def station():
    s = Station()
    s.note("functions by their numbers, models, batteries, test sets")
    for number, label in FUNCTIONS.items():
        s.say(f"<f:{number}>", ("label", en(label)))
    for model, label in MODELS.items():
        s.say(f"<model:{model}>", ("label", en(label)))
    for n in 1, 2:
        s.say(f"<battery:{n}>", ("label", en(f"battery {n}")), ("supply", of(220, "V")))
        s.say(f"<set:{n}>", ("kind", "<k:test-set>"), ("serial", f'"RT-{mix("set", n) % 9000 + 1000}"'))
    s.note("station and busbars")
    s.say("<st:Brackwater>", ("label", '"Brackwater"'))
    for kv in 400, 132:
        for side in "AB":
            s.say(f"<bb:{kv}{side}>", ("in", "<st:Brackwater>"), ("label", en(f"busbar {side}, {kv} kV")), ("voltage", of(kv, "kV")))
            s.voltage_transformer(f"{kv}{side}", f"<bb:{kv}{side}>", kv)
    lows = {"T1": "E01", "T2": "E02", "T3": "E03"}
    for t, low in lows.items():
        s.say(f"<tr:{t}>", ("in", "<st:Brackwater>"), ("kind", "<k:transformer>"), ("label", en(f"transformer {t}")),
              ("rating", of(240, "MVA")), ("ratio", '"400/132"'), ("group", '"YNa0d11"'), ("cooling", '"ONAN/ONAF"'))

    feeders = [f"E{n:02}" for n in range(7, 21)]
    bays = [f"E{n:02}" for n in range(1, 21)]
    labels = {"E01": "T1", "E02": "T2", "E03": "T3", "E04": "coupler", "E05": "capacitor bank 1", "E06": "capacitor bank 2"}
    labels.update(zip(feeders, FEEDERS))

    # Relays 1 to 4 are busbar protection; a diameter takes seven; a bay of 132 kV two, the coupler one.
    def diameter_relay(d, which):
        return 5 + 7 * (d - 1) + which
    low_relay = {}
    n = diameter_relay(6, 0)
    for bay in bays:
        low_relay[bay] = n
        n += 1 if bay in ("E01", "E02", "E03", "E04") else 2
    diameters = range(1, 6)
    side = {1: [f"D{d}.1" for d in diameters], 3: [f"D{d}.3" for d in diameters]}

    s.note("busbar protection")
    odd, even = ([b for b in bays if b != "E04" and int(b[1:]) % 2 == rest] for rest in (1, 0))
    for n, names in (1, side[1]), (2, side[3]), (3, odd + ["E04"]), (4, even + ["E04"]):
        kv = BUSBARS[n][2:5]
        s.say(f"<panel:{BUSBARS[n]}>", ("in", "<st:Brackwater>"), ("kind", "<k:panel>"))
        pickup = setting("pickup", 800 if kv == "400" else 600, "A")
        s.relay(BUSBARS[n], [f"<q:{q}>" for q in names], f"busbar {BUSBARS[n][-1]}, {kv} kV", "BB9", [f"<ct:{q}.3>" for q in names], [],
                [(q, f"trip {q}, coil 1", ("trip", q, 1), 5) for q in names] + signals_out(),
                [("87B", "87B", [pickup, delay(0)], names + ["alarm"]), ("50BF", "50BF", [delay(0)], names + ["alarm"])])

    for d, circuits in enumerate(DIAMETERS, 1):
        bay = f"D{d}"
        s.note(f"{bay}: {circuits[0]} and {circuits[1]}, 400 kV")
        s.say(f"<bay:{bay}>", ("in", "<st:Brackwater>"), ("label", en(f"diameter {d}: {circuits[0]} and {circuits[1]}")),
              ("at", "<bb:400A>"), ("at", "<bb:400B>"))
        s.say(f"<panel:{bay}>", ("in", f"<bay:{bay}>"), ("kind", "<k:panel>"))
        for b, what in (1, circuits[0]), (2, "tie"), (3, circuits[1]):
            q = f"{bay}.{b}"
            s.breaker(q, bay, f"breaker {b} of diameter {d}, {what}", 400)
            s.disconnector(f"{q}a", bay, f"disconnector of breaker {b}, towards busbar A")
            s.disconnector(f"{q}b", bay, f"disconnector of breaker {b}, towards busbar B")
            s.current_transformer(q, bay, "2000/1")
            if b != 2:
                kind = "transformer" if what in lows else "line"
                s.disconnector(f"{q}c", bay, f"{kind} disconnector, {what}")
                s.disconnector(f"{q}e", bay, f"earthing switch, {what}", "earthing-switch")
                s.voltage_transformer(q, f"<bay:{bay}>", 400)
        for c, b in (circuits[0], 1), (circuits[1], 3):
            names = [f"{bay}.{b}", f"{bay}.2"]
            starts = [diameter_relay(d, 3 + b), diameter_relay(d, 5)]
            if c in lows:
                transformer_relays(s, bay, names, starts + [low_relay[lows[c]]], c, lows[c])
            else:
                line_relays(s, bay, names, starts, f"line {c}", f"{bay}.{b}")
        for b in 1, 2, 3:
            q = f"{bay}.{b}"
            neighbours, busbars = {1: ([f"{bay}.2"], [1]), 2: ([f"{bay}.1", f"{bay}.3"], []), 3: ([f"{bay}.2"], [2])}[b]
            vt = {1: "400A", 2: f"{bay}.1", 3: "400B"}[b]
            more = [("79", "79", [setting("dead", 800, "ms")])]
            assert s.relays + 1 == diameter_relay(d, 3 + b)
            breaker_relay(s, bay, q, neighbours, busbars, vt, f"breaker {q}", more)

    for bay in bays:
        label = labels[bay]
        feeder = bay in feeders
        title = f"line {label}" if feeder else f"transformer {label}, 132 kV side" if label in lows else label
        s.note(f"{bay}: {title}")
        s.say(f"<bay:{bay}>", ("in", "<st:Brackwater>"), ("label", en(title)), ("at", "<bb:132A>"), ("at", "<bb:132B>"))
        s.say(f"<panel:{bay}>", ("in", f"<bay:{bay}>"), ("kind", "<k:panel>"))
        s.breaker(bay, bay, f"breaker {bay}, {title}", 132)
        s.disconnector(f"{bay}.1", bay, "disconnector, busbar A")
        s.disconnector(f"{bay}.2", bay, "disconnector, busbar B")
        if bay != "E04":
            s.disconnector(f"{bay}.9", bay, f"disconnector, {title}")
            s.disconnector(f"{bay}.8", bay, f"earthing switch, {title}", "earthing-switch")
        s.current_transformer(bay, bay, "800/1" if feeder else "1200/1")
        vt = "132A" if bay in odd else "132B"
        assert s.relays + 1 == low_relay[bay]
        if feeder:
            s.voltage_transformer(bay, f"<bay:{bay}>", 132)
        over = [("67", "67", [setting("pickup", 960, "A"), delay(900)]), ("67N", "67N", [setting("pickup", 120, "A"), delay(1200)]),
                ("79", "79", [setting("dead", 500, "ms")])]
        if not feeder:
            over = [("51", "51", [setting("pickup", 1260, "A"), delay(1200)]), ("51N", "51N", [setting("pickup", 180, "A"), delay(1500)])]
        if bay in ("E05", "E06"):
            over.append(("59", "59", [setting("pickup", 152, "kV"), delay(3000)]))
        busbars = [3, 4] if bay == "E04" else [3] if bay in odd else [4]
        breaker_relay(s, bay, bay, [], busbars, bay if feeder else vt, f"{title}, backup", over, "OC4", 80)
        if feeder:
            line_main(s, bay, low_relay[bay], title)
        elif bay in ("E05", "E06"):
            s.relay(bay, [f"<q:{bay}>"], f"{title}, unbalance", "CP2", [f"<ct:{bay}.1>"], breaker_signals([bay]),
                    [("t", f"trip {bay}, coil 2", ("trip", bay, 2), 5),
                     ("b", f"start breaker failure {bay}", ("start", low_relay[bay], bay), 5), *signals_out()],
                    [("60", "60", [setting("pickup", "1.5", "A"), delay(200)], ["t", "b", "alarm"]),
                     ("46", "46", [setting("pickup", 15, "percent"), delay(5000)], ["alarm"])])
    s.note("what is open, and what is not")
    for triple in sorted(marks(s.triples), key=lambda t: (t[1], t[2], natural(t[0]))):
        s.say(triple[0], (triple[1][3:-1], triple[2]))
    return s


def line_main(s, bay, start, title):
    """The main relay of a line of 132 kV."""
    reach = 30 + mix("reach", title) % 60
    outputs = [("t1", f"trip {bay}, coil 1", ("trip", bay, 1), 5), ("t2", f"trip {bay}, coil 2", ("trip", bay, 2), 5),
               ("b", f"start breaker failure {bay}", ("start", start, bay), 5), ("ar", "start reclosing", ("start", start, bay), 8),
               ("carrier", "carrier send", None, 5), *signals_out()]
    elements = [(f"Z{z}", "21", [setting("reach", reach * f // 10 / 10, "ohm"), delay(ms)], ["t1", "t2", "b", *also])
                for z, f, ms, also in [(1, 8, 0, ["ar", "carrier"]), (2, 12, 400, ["carrier"]), (3, 20, 1000, ["alarm"])]]
    elements += [("68", "68", [setting("pickup", reach // 4, "ohm")], ["alarm"]),
                 ("27", "27", [setting("pickup", 92, "kV"), delay(3000)], ["alarm"])]
    s.relay(bay, [f"<q:{bay}>"], f"{title}, main", "LZ5", [f"<ct:{bay}.1>", f"<vt:{bay}>"],
            breaker_signals([bay]) + ["voltage transformer fuse", "carrier received"], outputs, elements)


def marks(triples):
    """What a question cannot say with `not`: contacts without a measured time, breakers that no relay trips."""
    measured = {s for s, p, _ in triples if p == "<p:measured>"}
    tripped = {o for _, p, o in triples if p == "<p:trips>"}
    found = {(o, "<p:timing>", "<s:done>" if o in measured else "<s:open>") for _, p, o in triples if p == "<p:contact>"}
    return found | {(s, "<p:trip>", "<s:wired>" if s in tripped else "<s:missing>")
                    for s, p, o in triples if p == "<p:kind>" and o == "<k:breaker>"}


def natural(name):
    return [int(part) if part.isdigit() else part for part in re.split(r"([0-9]+)", name)]


def sizes(triples):
    names = {name for triple in triples for name in triple}
    return len(names), len(triples), sum(len(name) + 1 for name in names)


def heading(triples):
    resources, statements, text = sizes(triples)
    return f"""\
# Brackwater, a whole station of 400/132 kV for the shell's tables: {resources} resources, {statements} statements, {text} bytes of text.
# Five diameters of 400 kV (D1 to D5) and 20 bays of 132 kV (E01 to E20): breakers <q:>, trip coils <tc:>, disconnectors <d:>, current
# and voltage transformers <ct:> <vt:>, relays <r:> with elements <e:>, contacts <c:> and inputs <i:>, terminals <x:>, cables <w:>,
# settings sheets, reports of tests.
# Wiring: an element <p:drives> a contact, whose <p:out> is a terminal, which a <p:wire> joins to a terminal with a <p:coil>, which is
# <p:of> a breaker; or to a terminal that <p:enters> an input. A relay <p:trips> a breaker if a contact of it is wired to a trip coil of it.
# Marks: a question has no "not", so what is open is a statement of its own. A contact without <p:measured> has <p:timing> <s:open>, any
# other <p:timing> <s:done>; a breaker that no relay <p:trips> has <p:trip> <s:missing>, any other <p:trip> <s:wired>. Whoever changes
# the one changes the other: when a contact has been timed, assert its <p:measured> and <p:timing> <s:done>, and retract its
# <p:timing> <s:open>.
# Written by samples/make-station.py.
"""


IRI = r'<[!#-;=?-\[\]_a-z~]+>'
BLANK = r'_:[A-Za-z0-9_](?:[A-Za-z0-9_.-]*[A-Za-z0-9_-])?'
LITERAL = r'"(?:[ !#-\[\]-~]|\\["\\nr])*"(?:@[A-Za-z]+(?:-[A-Za-z0-9]+)*|\^\^' + IRI + ')?'
LINE = re.compile(rf'[ \t]*(?:({IRI}|{BLANK})[ \t]*({IRI})[ \t]*({IRI}|{BLANK}|{LITERAL})[ \t]*\.[ \t]*)?(?:#[\t -~]*)?')


def check(path):
    faults, triples, first = [], {}, ""
    text = open(path, "rb").read().decode("latin-1")
    for number, line in enumerate(text.removesuffix("\n").split("\n"), 1):
        line = line.removesuffix("\r")
        first = first or line
        found = LINE.fullmatch(line)
        if not found or len(line) > 1024 or any(part and len(part) > 255 for part in found.groups()):
            faults.append(f"line {number} is no line of paper 01")
        elif found[1]:
            if found.groups() in triples:
                faults.append(f"line {number} is there already")
            triples[found.groups()] = number
    resources, statements, size = sizes(triples)
    for what, used, room in ("resources", resources, RESOURCES), ("statements", statements, STATEMENTS), ("bytes", size, TEXT):
        print(f"{what} {used} of {room}, {100 * used / room:.1f} percent")
        if used > room or f"{used} {what}" not in first:
            faults.append(f"{what}: over the table, or not as the first line says")
    there = {t for t in triples if t[1] in ("<p:timing>", "<p:trip>")}
    due = marks(triples)
    faults += [f"mark missing: {' '.join(t)}" for t in sorted(due - there)] + [f"mark wrong: {' '.join(t)}" for t in sorted(there - due)]
    for mark in "<s:open>", "<s:done>", "<s:missing>", "<s:wired>":
        print(mark, sum(t[2] == mark for t in there))
    print("\n".join(faults) if faults else "right")
    return 1 if faults else 0


if __name__ == "__main__":
    if sys.argv[1:2] == ["--check"] and len(sys.argv) == 3:
        sys.exit(check(sys.argv[2]))
    made = station()
    sys.stdout.write(heading(made.triples) + "\n".join(made.lines) + "\n")
