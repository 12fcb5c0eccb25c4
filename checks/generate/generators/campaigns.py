"""The computed examples of `trace`: campaigns and their chronicles, which the model in checks/random_campaigns computes."""
import re

from .antt import boolean, chain, chain_of_counted, chain_of_runs, optional
from .instructions import terms
from .models import campaigns, context_numbers, program

MODEL = "Written by checks/generate, which computes the right sides by a model."

# The imports, in the order of the files: a module, and its names that a file imports if it uses them. A module that has a name
# of its own is imported if that name is used.
PRELUDE = "pos negsuc map take true false ℕ ◌≡◌ List [] ◌∷◌ ◌++◌ replicate codes None Some refl".split()
IMPORTS = (
    ("std.specs.Fmt", "digits"),
    ("word.specs.declared.Width.TheVariants", "W64"),
    ("word.specs.declared.Operation.TheVariants as op", None),
    ("insn.specs.declared.insn.Insn", "Insn"),
    ("insn.specs.declared.insn.Insn.TheVariants as i", None),
    ("insn.specs.declared.insn.Operand.TheVariants", "Register Immediate"),
    ("combine.specs.Rule", "majority median is_middle"),
    ("combine.specs.declared.campaign_rule.Rule.TheVariants", "Majority Median"),
    ("label.specs.Labels", "labels"),
    ("label.specs.Oral", "om"),
    ("semantics.specs.Execution", "step"),
    ("round.specs.Scenario", "Scenario"),
    ("mem.specs.ContextLayout", "context_bytes"),
    ("round.specs.Contexts", "context_of"),
    ("round.specs.Letters", "messages"),
    ("world.specs.declared.event.EventError.TheVariants", "NotOpen NoGeneral"),
    ("world.specs.World", "opening run refusal"),
    ("world.specs.declared.event.Event.TheVariants", "Tick Post Close"),
    ("world.specs.Lists", "listed_rounds listed"),
    ("world.specs.Chronicle", "decisions chronicle_of"),
    ("world.specs.World", "World"),
    ("trace.specs.Text", "lines_in text_in chronicle_text"),
    ("trace.proofs.Printed", "printed lines"),
)

WORDS_ON_BOARD = 64
PRINTED = "messages decisions lines_in text_in step digits"


# ---- events: a campaign whose rounds are closed when someone says so ----


class Steered(campaigns.World):
    """A campaign that is run event by event. A loyal general posts, a traitor ticks, and a round is closed."""

    def __init__(self, scenario):
        self.posted, self.is_full = set(), True
        super().__init__(scenario)

    def refusal(self, event):
        """The reason for which an event is refused, or None."""
        kind, g = event
        if self.round > self.s.bound + 1:
            return "NotOpen"
        if kind == "Close":
            return None
        is_there = g in self.s.programs if kind == "Tick" else g < self.s.generals and g not in self.s.programs
        return None if is_there else "NoGeneral"

    def run(self, events):
        for kind, g in events:
            if kind == "Tick":
                self.tick(g)
            elif kind == "Post":
                self.posted.add(g)
            else:
                self.close()
        return self

    def close(self):
        """Closes the round. A traitor whose program still runs is cut off, and a loyal general who has not posted sends nothing."""
        absent = [g for g in range(self.s.generals) if g not in self.s.programs and g not in self.posted]
        closed, first = self.round, len(self.lines)
        for part in self.parts.values():
            part.exited = True
        super().close()
        for g in absent:
            at = self.lines.index(f"letter {g} loyal", first)
            end = next((k for k in range(at + 1, len(self.lines)) if not self.lines[k].startswith("row ")), len(self.lines))
            del self.lines[at:end]
            for label, receiver in list(self.messages):
                if len(label) == closed and label[-1] == g:
                    del self.messages[label, receiver]
        self.is_full, self.posted = self.is_full and not absent, set()

    def decided(self):
        return [self.decision(p) for p in range(self.s.generals) if p != self.s.commander]

    def context(self, g):
        """The bytes at the beginning of a general's context in this round."""
        s, labels = self.s, campaigns.relayed(self.s, g, self.round)
        taken = [self.taken(label, g) for label in labels]
        told = context_numbers(s.generals, s.bound, g, s.commander, self.round, len(labels), taken)
        return b"".join(number.to_bytes(4, "little") for number in told)


def events(text):
    """Reads events in short form: `p0` is a post of general 0, `t3*7` is seven ticks of general 3, and `c` closes the round."""
    out = []
    for word in text.split():
        kind, _, times = word.partition("*")
        names = {"p": "Post", "t": "Tick", "c": "Close"}
        out += [(names[kind[0]], int(kind[1:] or 0))] * int(times or 1)
    return out


def events_term(listed):
    return chain_of_runs(["Close" if kind == "Close" else f"{kind} {g}" for kind, g in listed])


def full_rounds(scenario, count):
    """The events of `count` rounds in which every program runs to its end and every loyal general posts."""
    steps = 1000  # No program of these files runs longer.
    one = [("Tick", g) for g in scenario.programs for _ in range(steps)]
    posts = [("Post", g) for g in range(scenario.generals) if g not in scenario.programs]
    return (one + posts + [("Close", 0)]) * count


# ---- pages ----


def tells(*orders):
    """The lines of a program that sends orders for each label that it relays. Each pair is a general and his order."""
    return "".join(f"mov r1, {receiver}; mov r2, {order}; call sway; " for receiver, order in orders)


class Page:
    """A proof file: programs, scenarios and rows."""

    def __init__(self, title, first=(), no_schedule="([])", imported=()):
        """`first` has the names of the prelude that are imported before the others, and `no_schedule` is the term of no schedule."""
        self.title, self.first, self.no_schedule, self.imported = title, first, no_schedule, imported
        self.parts, self.programs, self.scenarios = [], {}, {}

    def use(self, name, text):
        """Adds a program that another file defines."""
        self.programs[name] = text

    def program(self, name, comment, text, kept=""):
        """Adds a program. `kept` has the words before its name, such as `unfoldable pub `."""
        self.programs[name] = text
        body = chain(terms(program(text).code)).replace(" ∷ ", "\n    ∷ ")
        self.add(comment, f"{kept}{name} : List Insn\n{name} =\n    {body}\n")

    def scenario(self, name, comment, generals, bound, order, traitors=None, commander=0, board=(), patience=None, rule=None):
        """Adds a scenario. `traitors` maps a general to the name of his program."""
        traitors = traitors or {}
        programs = {g: program(self.programs[p]) for g, p in traitors.items()}
        made = campaigns.Scenario(False, generals, bound, commander, order, list(board), patience, rule, programs)
        self.scenarios[name] = (made, list(dict.fromkeys(traitors.values())))
        words = " ∷ ".join([*map(str, board), f"replicate {WORDS_ON_BOARD - len(board)} 0"])
        listed = chain(optional(traitors.get(g)) for g in range(generals))
        self.add(comment, (
            f"{name} : Scenario\n{name} = record {{ generals = {generals}; bound = {bound}; commander = {commander}; order = {order}; "
            f"board = {words}; programs = {listed}; patience = {optional(patience)}; rule = {(rule or 'majority').capitalize()} }}\n"))

    def printed(self, name, comment, scenario, schedule=()):
        """Adds the chronicle of a campaign under a schedule. Each line is a list of pairs of a general and how often he is named."""
        world = campaigns.play(self.scenarios[scenario][0], schedule)
        term = self.no_schedule if not schedule else f"({chain(map(schedule_line, schedule))})"
        self.chronicle(name, comment, f"printed {scenario} {term}", scenario, world)

    def steered(self, name, comment, scenario, text):
        """Adds the chronicle of a campaign that is run by events."""
        world = Steered(self.scenarios[scenario][0]).run(events(text))
        self.chronicle(name, comment, f"chronicle_text (chronicle_of (run (opening {scenario}) ({events_term(events(text))})))", scenario, world)

    def chronicle(self, name, comment, left, scenario, world):
        text = lines(world.chronicle())
        self.row(name, comment, f"{left} ≡ lines (\n{text}", self.unfolded(scenario))

    def row(self, name, comment, statement, unfolded):
        space = "" if statement.startswith("\n") else " "
        self.add(comment, f"{name} :{space}{statement}\nunfolding {unfolded}\n{name} = refl\n")

    def unfolded(self, scenario, last=None):
        """The names that the row of a scenario unfolds: its programs, and the definitions that play and print it."""
        made, programs = self.scenarios[scenario]
        rule = {None: "majority", "median": "median is_middle"}[made.rule]
        last = last or f"om {rule} context_bytes {PRINTED}"
        return " ".join([scenario, *programs, "labels", last])

    def add(self, comment, text):
        self.parts.append((f"-- {comment}\n" if comment else "") + text)

    def text(self):
        body = "\n".join(self.parts)
        code = re.sub(r'^--.*\n|".*"', "", body, flags=re.M)
        prelude = [name for name in PRELUDE if name not in self.first and is_used(name, code)]
        uses = [f"use Rattle.std.specs.Prelude.{{{', '.join([*self.first, *prelude])}}}"]
        for module, names in IMPORTS:
            used = [name for name in (names or "").split() if is_used(name, code)]
            if names is None and re.search(rf"\b{module.split()[-1]}\.", code):
                uses.append(f"use Rattle.{module}")
            elif used:
                uses.append(f"use Rattle.{module}.{{{', '.join(used)}}}")
        uses += [f"use Rattle.trace.proofs.{module}.{{{name}}}" for module, name in self.imported]
        return f"-- {self.title}\n" + "\n".join(uses) + "\n\n" + body


def is_used(name, code):
    if name == "[]" or "◌" in name:
        return name.strip("◌") in code
    return re.search(rf"\b{name}\b", code) is not None


def schedule_line(entries):
    term = chain_of_counted(entries)
    return f"({term})" if " ∷ " in term else term


def lines(told):
    """The lines of a chronicle as terms, with the parenthesis that ends the list."""
    first, *others = (f'codes "{line}"' for line in told)
    return f"    {first}\n" + "".join(f"    ∷ {line}\n" for line in others) + "    ∷ [])"


# ---- the files ----


def two_generals():
    page = Page(f"A campaign of two loyal generals, from the scenario to the chronicle's text. {MODEL}")
    page.scenario("two", "two generals, no traitor", 2, 0, 7)
    page.printed("two_generals", "the lieutenant decides the order", "two")
    return page.text()


LIAR = tells((1, 0)) + "exit"


def three_generals():
    page = Page(f"Three generals, one of them a traitor: too few, from the scenario to the chronicle's text. {MODEL}")
    page.program("liar", "he tells general 1 the order 0", LIAR, "unfoldable pub ")
    page.scenario("three", "three generals, one of them a traitor: too few", 3, 1, 1, {2: "liar"})
    page.printed("three_generals", "the loyal lieutenant does not obey", "three")
    page.program("mute", "he says nothing", "mov r0, 0; exit")
    page.scenario("three_mute", "three generals, one of them a traitor", 3, 1, 1, {2: "mute"})
    page.printed("three_mute_generals", "what does not come counts as 0, and stands in the list", "three_mute")
    return page.text()


THREE_WAYS = tells((1, 1), (2, 2), (3, 3)) + "exit"


def traitor_commander():
    page = Page("Four generals under a traitor, from the scenario as a value, with its programs, to the chronicle's text. "
                "Written by checks/generate, which computes the right sides by a model.")
    shown = "four generals under him"
    page.program("split", "a commander who tells the orders 1, 0 and 1", tells((1, 1), (2, 0), (3, 1)) + "exit")
    page.scenario("under_split", shown, 4, 1, 0, {0: "split"})
    page.printed("commander_split", "all decide 1", "under_split")
    page.program("silent", "a commander who tells nothing to general 3", tells((1, 1), (2, 0)) + "exit")
    page.scenario("under_silent", shown, 4, 1, 0, {0: "silent"})
    page.printed("commander_silent", "nothing counts as 0: all decide 0", "under_silent")
    page.program("three_ways", "a commander who tells three orders", THREE_WAYS, "unfoldable pub ")
    page.scenario("under_three_ways", shown, 4, 1, 0, {0: "three_ways"})
    page.printed("commander_three_ways", "no order has more than half: all decide 0", "under_three_ways")
    return page.text()


TURNCOAT = tells((1, 0), (2, 0)) + "exit"


def traitor_lieutenant():
    page = Page(f"Four generals, a traitor among the lieutenants, from the scenario to the chronicle's text. {MODEL}")
    page.program("turncoat", "he tells generals 1 and 2 the order 0", TURNCOAT, "unfoldable pub ")
    page.scenario("four", "four generals, a traitor among the lieutenants", 4, 1, 1, {3: "turncoat"})
    page.printed("traitor_lieutenant", "the loyal lieutenants obey", "four")
    page.printed("skipped_entries", "entries of a schedule past his end and of no general are skipped", "four", [[(3, 9), (3, 1), (12, 1)]])
    page.steered("cut_off", "a traitor is cut off before his first step, and behind his fourth", "four", "p0 p1 p2 c p0 p1 p2 t3*4 c")
    contexts_of_four(page)
    refusals_of_four(page)
    contexts_by_bytes(page)
    return page.text()


CONTEXTS = "context_bytes messages step"
IN_ROUND_2 = "(run (opening four) (listed_rounds four 1 [])).closed"


def four_behind(page, rounds):
    s = page.scenarios["four"][0]
    return Steered(s).run(full_rounds(s, rounds))


def contexts_of_four(page):
    told = list(four_behind(page, 1).context(2)[:40].ljust(40, b"\0"))
    rows = [told[:16], told[16:32], told[32:]]
    text = "\n    ∷ ".join(" ∷ ".join(map(str, row)) for row in rows)
    page.row("context_in_round_2", "what general 2 of the four is told in round 2, in bytes",
             f"take 40 (context_of four {IN_ROUND_2} 2) ≡\n    {text} ∷ []", page.unfolded("four", CONTEXTS))


def refusals_of_four(page):
    """Adds rows of refused events: at the start, after the last round, and after some events of the first round."""
    s = page.scenarios["four"][0]

    def refused(name, comment, world, text, function, last):
        told = chain(optional(world.refusal(event)) for event in events(text))
        page.row(name, comment, f"{function} ({events_term(events(text))}) ≡ {told}", page.unfolded("four", last))

    comment = "a tick of a loyal general, a post of a traitor and of nobody, and any event behind the last round are refused"
    start = "\n    map (refusal (opening four))"
    refused("refused_events", comment, Steered(s), "t0 p3 p12 t3 p0 c", start, "context_bytes messages")
    end = "map (refusal (run (opening four) (listed four [])))"
    refused("refused_behind", None, four_behind(page, 2), "t3 p0 c", end, CONTEXTS)
    begun = events("p0 t3*7")
    idle = f"map (refusal (run (opening four) ({events_term(begun)})))"
    comment = "a second post and a tick of an ended activation are not refused"
    refused("idle_events", comment, Steered(s).run(begun), "p0 t3", idle, CONTEXTS)


def contexts_by_bytes(page):
    start, second = four_behind(page, 0), four_behind(page, 1)
    told = [world.context(g)[:40].ljust(40, b"\0") for world, g in ((start, 0), (start, 2), (second, 0))]
    text = "".join(f"({chain(bytes_)})\n    ∷ " for bytes_ in told)
    page.row("contexts", "the commander's context, and one of a general who relays nothing",
             f"map (take 40) (context_of four [] 0 ∷ context_of four [] 2 ∷ context_of four {IN_ROUND_2} 0 ∷ []) ≡\n    {text}[]",
             page.unfolded("four", CONTEXTS))


def two_traitors():
    page = Page("Two traitors of four generals, the commander and a lieutenant, from the scenario to the chronicle's text. " + MODEL)
    page.program("divider", "he tells general 0 the order 1, and general 1 the order 0", tells((0, 1), (1, 0)) + "exit")
    page.scenario("divided", "the commander, general 2, and general 3 divide the two others", 4, 1, 5, {2: "divider", 3: "divider"}, 2)
    page.printed("two_traitors", None, "divided")
    return page.text()


def absent():
    page = Page(f"Loyal generals who are absent from a round, from the scenario to the chronicle's text. {MODEL}", ("true", "false", "ℕ"))
    page.program("divider_later", "he tells general 1 the order 1, and general 2 the order 0", tells((1, 1), (2, 0)) + "exit")
    page.scenario("four_divided", "generals 1 and 2 are absent in round 2, and then 1 and 2 have posted", 4, 1, 1, {3: "divider_later"})
    page.add(None, "deciding : World → List ℕ\ndeciding w = decisions w.scenario (messages w.closed)\n")
    hurried = "p0 p1 p2 c t3*7 c"
    punctual = "p0 p1 p2 c t3*7 p0 p1 p2 c"
    worlds = [Steered(page.scenarios["four_divided"][0]).run(events(text)) for text in (hurried, punctual)]
    listed = chain(f"run (opening four_divided) ({events_term(events(text))})" for text in (hurried, punctual))
    decided = chain(f"({chain(world.decided())})" for world in worlds)
    unfolded = page.unfolded("four_divided")
    page.row("absent", None, f"map (λ w. deciding w) ({listed})\n    ≡ {decided}", f"deciding {unfolded}")
    full = chain(boolean(world.is_full) for world in worlds)
    page.row("absent_full", None, f"map (λ w. w.full) ({listed})\n    ≡ {full}", unfolded)
    comment = "what the hurried close leaves to tell: no letters of the loyal in round 2, and no agreement"
    page.steered("hurried", comment, "four_divided", hurried)
    page.steered("punctual", "the same made punctual", "four_divided", punctual)
    return page.text()


def honest_to_one():
    page = Page(f"A traitor who is honest to one general, from the scenario to the chronicle's text. {MODEL}")
    half = "mov r1, 1; call honest; mov r1, 0; mov r2, 2; mov r3, 9; call send; exit"
    page.program("half", "he is honest to general 1, and tells general 2 the order 9", half)
    page.scenario("half_honest", "four generals, a traitor who is honest to one", 4, 1, 6, {3: "half"})
    page.printed("honest_to_one", "what he took stands in his context", "half_honest")
    return page.text()


def each_access():
    page = Page(f"A traitor who makes each kind of access, from the scenario to the chronicle's text. {MODEL}")
    clerk = ("mov r1, 3; mov r2, 8; call board_swap; mov r1, 3; mov r2, 2; call board_add; "
             "mov r1, 3; mov r2, 10; mov r3, 11; call board_cas; mov r1, 3; mov r2, 10; mov r3, 12; call board_cas; "
             "mov r1, 2; mov r2, r10; add r2, -24; mov r3, 3; call board_copy; mov r1, 3; call board_get; exit")
    page.program("clerk", "he makes an access of each kind", clerk)
    page.scenario("board", "two generals, words on the board", 2, 0, 7, {1: "clerk"}, board=(0, 0, 6, 5))
    page.printed("each_access", "each kind of access", "board")
    page.program("idler", "he copies no word", "mov r1, 5; mov r2, r10; mov r3, 0; call board_copy; exit")
    page.scenario("idle", None, 2, 0, 7, {1: "idler"})
    page.printed("copies_none", None, "idle")
    return page.text()


COUNTER = "mov r1, 0; mov r2, 1; call board_add; mov r6, r0; and r6, 1; " + tells((1, "r6"), (2, "r6"), (3, "r6")) + "exit"
COUNTERS = {0: "counter", 4: "counter"}


def seven_generals():
    page = Page(f"Campaigns of seven generals under schedules, from the scenario to the chronicle's text. {MODEL}")
    comment = "he adds 1 to a word of the board, and tells generals 1, 2 and 3 the lowest bit of what it was"
    page.program("counter", comment, COUNTER, "unfoldable pub ")
    page.scenario("seven", "seven generals under a traitor, another among the lieutenants", 7, 2, 0, COUNTERS)
    page.printed("seven_generals", "without a schedule general 0 comes first", "seven")
    page.printed("first_round", "a line for the first round puts general 4 in front there", "seven", [[(4, 15)]])
    page.printed("two_rounds", "and one for the second there too", "seven", [[(4, 15)], [(4, 15)]])
    s = page.scenarios["seven"][0]
    full = [Steered(s).run(listed).is_full for listed in (events("c"), full_rounds(s, 1))]
    page.row("hasty", "where a round is closed at once, not all loyal generals had posted",
             "map (λ w. w.full) (run (opening seven) (Close ∷ []) ∷ run (opening seven) (listed_rounds seven 1 []) ∷ []) ≡ "
             + chain(map(boolean, full)), page.unfolded("seven", CONTEXTS))
    return page.text()


def cut_off():
    page = Page(f"Traitors that are cut off by a patience, from the scenario to the chronicle's text. {MODEL}", (), "[]",
                (("TraitorLieutenant", "turncoat"), ("SevenGenerals", "counter")))
    page.use("turncoat", TURNCOAT)
    page.use("counter", COUNTER)
    page.scenario("four_cut", "four generals, whose traitor may take three steps", 4, 1, 1, {3: "turncoat"}, patience=3)
    page.printed("cut_behind_three", "his first order still goes out: the last step that he may take is served", "four_cut")
    page.scenario("seven_cut", "seven generals, whose traitors may take three steps", 7, 2, 0, COUNTERS, patience=3)
    page.printed("served_last", "the access of the third step is served, and no order goes out", "seven_cut")
    page.scenario("seven_short", "the same with two steps", 7, 2, 0, COUNTERS, patience=2)
    page.printed("cut_before", "no access is made", "seven_short")
    return page.text()


def medians():
    page = Page(f"Campaigns by the median, from the scenario to the chronicle's text. {MODEL}", (), "[]",
                (("TraitorCommander", "three_ways"), ("ThreeGenerals", "liar")))
    page.use("three_ways", THREE_WAYS)
    page.use("liar", LIAR)
    page.scenario("under_three", "four generals under a commander who tells three orders", 4, 1, 0, {0: "three_ways"}, rule="median")
    page.printed("middle_order", "the middle one is decided", "under_three")
    page.scenario("three_median", "three generals, one of them a traitor", 3, 1, 1, {2: "liar"}, rule="median")
    page.printed("three_obey", "of two orders the greater one stands in the middle, and the lieutenant obeys", "three_median")
    return page.text()


# ---- signed messages ----

SIGNED_HEAD = """\
-- Rows, computed: signed campaigns from their traitors' programs to their texts. Written by checks/generate.
use Rattle.std.proofs.Common.{◌≡◌, ℕ, List, [], ◌∷◌, ◌++◌, refl}
use Rattle.std.specs.Prelude.{codes}
use Rattle.std.specs.Fmt.{digits}
use Rattle.semantics.specs.Execution.{step}
use Rattle.mem.specs.ContextLayout.{context_bytes}
use Rattle.world.specs.KindLists.{listed, replayed}
use Rattle.signed.specs.Accepted.{held, accepted}
use Rattle.signed.specs.Loyal.{loyal_entries}
use Rattle.signed.specs.Sent.{held_behind, sent_in}
use Rattle.signed.specs.Kind.{signed_kind, played}
use Rattle.signed.specs.Chronicle.{signed_decisions, signed_chronicle_of}
use Rattle.signed.proofs.ProgramRows.{passing, torn, pair, late, twice}
use Rattle.trace.specs.SignedText.{signed_lines, signed_text}

-- lines, each with its LF
abbrev whole : List (List ℕ) → List ℕ
whole [] = []
whole (l ∷ ls) = l ++ 10 ∷ whole ls

"""


def calling(helper, first, second):
    return f"mov r1, {first}; mov r2, {second}; call {helper}; "


def signed(generals, bound, order, traitors, patience=None):
    programs = {g: program(text + "exit") for g, text in traitors.items()}
    return campaigns.Scenario(True, generals, bound, 0, order, [], patience, None, programs)


# The same campaigns as in crates/signed/proofs/ProgramRows.antt, which is written by hand.
READ_TWICE = calling("board_get", 5, 0) * 2
TORN = calling("sign_order", 1, 2) + calling("sign_order", 0, 4)
PAIR = {0: calling("board_swap", 5, 7) + calling("sign_order", 1, 6), 2: READ_TWICE + calling("pass_on", 0, 2)}
ONCE = "ldw r0, [r1+16]; jne r0, 1, +3; " + calling("sign_order", 7, 8)
AGAIN = "ldw r3, [r1+16]; jeq r3, 2, +4; " + calling("pass_on", 1, 2) + "exit; " + calling("pass_on", 0, 8)
SIGNED = {
    "passing": signed(3, 1, 1, {2: calling("pass_on", 0, 2)}),
    "torn": signed(3, 1, 0, {0: TORN}),
    "pair": signed(3, 1, 1, PAIR),
    "late": signed(4, 2, 1, {0: calling("sign_order", 7, 8), 3: calling("pass_on", 0, 6)}, 4),
    "twice": signed(4, 2, 1, {0: ONCE, 3: AGAIN}),
}

# How each is run, and the lines: `listed` by a schedule, `replayed` by the generals who make accesses.
RUNS = {
    "passing": ("listed", []),
    "torn": ("replayed", []),
    "pair": ("replayed", [[2, 0, 2]]),
    "late": ("listed", [[3, 1, 0, 2, 0, 3]]),
    "twice": ("listed", []),
}


def signed_rows():
    rows = []
    for name, (how, turns) in RUNS.items():
        s = SIGNED[name]
        world = campaigns.replay(s, turns) if how == "replayed" else campaigns.play(s, [[(g, 1) for g in line] for line in turns])
        given = f"({chain(f'({chain(line)})' for line in turns)})" if turns else "[]"
        run = f"{how}{' signed_kind' if how == 'replayed' else ''} {name} {given}"
        rows.append(f"{name}_text : signed_text (signed_chronicle_of (played {name} ({run}))) ≡ whole (\n{lines(world.chronicle())}\n"
                    "unfolding signed_text signed_lines signed_decisions sent_in held_behind held accepted loyal_entries context_bytes "
                    f"step digits\n{name}_text = refl\n")
    return SIGNED_HEAD + "\n".join(rows)
