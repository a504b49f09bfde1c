#!/usr/bin/env python3
"""Answers a replay script (docs/REPLAY.md) through the package, so that `second/compare` can compare it with the second program.

Ledger and cabinet are changed in place. Each of their calls is made by value too, and each run in a slot of a cabinet; where a
script lends a buffer the library is called with it, and the package's own function has to give the same. The program ends with
an AssertionError where two ways differ.
"""
import struct
import sys
from ctypes import create_string_buffer
from pathlib import Path

sys.path.insert(0, str(Path(__file__).resolve().parent.parent))

from akubolinfe import Cabinet, Form, Ledger, Reply, Text, attest, locate_file, locate_verdict, places, prepare, subject, trim  # noqa: E402
from akubolinfe._library import NO_GROUP, CertificateStruct, library  # noqa: E402
from akubolinfe.gate import _answers, _reply  # noqa: E402
from akubolinfe.text import KINDS  # noqa: E402
from akubolinfe.words import STEPS  # noqa: E402

LONGEST = 262144
LIBRARY = library()


class Stop(Exception):
    """The script cannot be read on."""


class Script:
    """The rest of a script."""

    def __init__(self, content):
        self.content, self.at = content, 0

    def take(self, size):
        if size > len(self.content) - self.at:
            raise Stop
        self.at += size
        return self.content[self.at - size : self.at]

    def number(self):
        return int.from_bytes(self.take(8), 'big')

    def bytes(self):
        length = int.from_bytes(self.take(4), 'big')
        if length > LONGEST:
            raise Stop
        return self.take(length)

    def row(self):
        content = self.bytes()
        if len(content) % 22:
            raise Stop
        return [struct.unpack('>20sH', content[at : at + 22]) for at in range(0, len(content), 22)]

    def form(self):
        content = self.bytes()
        if len(content) != 144:
            raise Stop
        *uses, working, recovery = struct.unpack('>18Q', content)
        return Form(uses, working, recovery)


def lent(*inputs):
    """Inputs as the library takes them, each with its length."""
    return [part for content in inputs for part in (content, len(content))]


def buffer_of(content):
    """A buffer that has this content, of exactly its length."""
    return create_string_buffer(content, len(content)) if content else None


def lent_buffer(buffer):
    return (buffer, 0 if buffer is None else len(buffer))


def digits(buffer):
    return '' if buffer is None else buffer.raw.hex()


def table(name, entries):
    return f' {name}' + ''.join(f' {place}:{value}' for place, value in enumerate(entries) if value)


def ledger_words(ledger):
    counts, counters, loaded, last = ledger.numbers
    return f' load {loaded} last {last}{table("counts", counts)}{table("counters", counters)}'


def index_of(number):
    """An index, or None for all ones."""
    return None if number == NO_GROUP else number


def place_words(at):
    """All numbers of a place."""
    numbers = [index_of(getattr(at, name)) for name, _ in at._fields_]
    return 'place ' + ' '.join('-' if number is None else str(number) for number in numbers)


class Replay:
    """The ledger and the cabinet, which go from call to call."""

    def __init__(self, script):
        self.script, self.ledger, self.cabinet = script, Ledger(), Cabinet()

    def answer(self, letter):
        call = {'F': self.fresh, 'L': self.load, 'C': self.clear, 'R': self.ask, 'N': self.ask, 'X': self.ask, 'D': self.desk,
                'S': self.subject, 'W': self.text, 'T': self.text, 'V': self.any_text, 'U': self.any_text, 'M': self.trim, 'P': self.prepare, 'B': self.run, 'Q': self.run,
                'f': self.fresh_cabinet, 'l': self.slot, 'c': self.clear_shared, 'r': self.slot, 'n': self.slot, 'x': self.slot, 'b': self.run_in_slot,
                'q': self.run_in_slot, 'A': self.file_place, 'G': self.call_place, 'H': self.call_place, 'I': self.call_place, 'J': self.verdict_place,
                'K': self.restore}.get(letter)
        if call is None:
            raise Stop
        return call(letter)

    def fresh(self, _):
        self.ledger = Ledger()
        return f'{Reply(0)}{ledger_words(self.ledger)}'

    def load(self, _):
        return self.ledger_call('load', self.script.number())

    def clear(self, _):
        return self.ledger_call('clear', self.script.number())

    def ask(self, letter):
        return self.ledger_call(*self.asked(letter))

    def asked(self, letter):
        """The name of a request, a narrowing or an expansion, and its inputs."""
        name, count = {'R': ('request', 3), 'N': ('narrow', 5), 'X': ('expand', 4)}[letter.upper()]
        return (name, *(self.script.bytes() for _ in range(count)))

    def ledger_call(self, name, *inputs):
        by_value = getattr(LIBRARY, name)(self.ledger._raw, *(inputs if isinstance(inputs[0], int) else lent(*inputs)))
        reply = getattr(self.ledger, name)(*inputs)
        assert (reply, bytes(self.ledger._raw)) == (_reply(by_value), bytes(by_value.ledger)), 'by value'
        return f'{reply}{ledger_words(self.ledger)}'

    def fresh_cabinet(self, _):
        self.cabinet = Cabinet()
        return f'{Reply(0)}{table("counters", self.cabinet.counters)}'

    def clear_shared(self, _):
        return f'{self.cabinet_call("clear", self.script.number())}{table("counters", self.cabinet.counters)}'

    def slot(self, letter):
        slot = self.script.number()
        call = ('load', self.script.number()) if letter == 'l' else self.asked(letter)
        return f'{self.cabinet_call(call[0], slot, *call[1:])}{self.slot_words(slot)}'

    def slot_words(self, slot):
        """The slot that was called, where there is one, and the counters that the slots share."""
        slots, counters = self.cabinet.numbers
        called = ''
        if slot < len(slots):
            called = f' slot {slot} load {slots[slot].loaded} last {slots[slot].last}{table("counts", slots[slot].counts)}'
        return f'{called}{table("counters", counters)}'

    def cabinet_call(self, name, first, *inputs):
        raw = inputs if not inputs or isinstance(inputs[0], int) else lent(*inputs)
        by_value = getattr(LIBRARY, 'cabinet_' + name)(self.cabinet._raw, first, *raw)
        reply = getattr(self.cabinet, name)(first, *inputs)
        assert (reply, bytes(self.cabinet._raw)) == (_reply(by_value), bytes(by_value.cabinet)), 'by value'
        return reply

    def desk(self, _):
        bundle = self.script.bytes()
        return str(attest(bundle, self.script.bytes()))

    def subject(self, _):
        certificate, suite, hashes = self.script.number(), self.script.number(), self.script.bytes()
        buffer = buffer_of(self.script.bytes())
        made = LIBRARY.subject(certificate, suite, *lent(hashes), *lent_buffer(buffer))
        whole = subject(certificate, suite, hashes)
        self.agree(made.refusal, made.length, buffer, whole)
        return f'{self.length(made)} {digits(buffer)}'

    def text(self, letter):
        given, buffer = self.script.bytes(), buffer_of(self.script.bytes())
        way = {'W': 'write', 'T': 'read'}[letter]
        made = getattr(LIBRARY, way + '_listing')(*lent(given), *lent_buffer(buffer))
        whole = getattr(Text('acl'), way)(given)
        self.agree(made.refusal, made.length, buffer, whole)
        if made.refusal == 15:
            assert made.line == whole.line, 'line'
            return f'refuse 15 {made.line} {digits(buffer)}'
        return f'{self.length(made)} {digits(buffer)}'

    def any_text(self, letter):
        kind, given, buffer = self.script.number(), self.script.bytes(), buffer_of(self.script.bytes())
        way = {'V': 'write', 'U': 'read'}[letter]
        made = getattr(LIBRARY, way + '_text')(min(kind, 2**32 - 1), *lent(given), *lent_buffer(buffer))
        if kind < len(KINDS):
            self.agree(made.refusal, made.length, buffer, getattr(Text(KINDS[kind]), way)(given))
        if made.refusal == 15:
            return f'refuse 15 {made.line} {digits(buffer)}'
        return f'{self.length(made)} {digits(buffer)}'

    @staticmethod
    def length(made):
        return f'refuse {made.refusal}' if made.refusal else f'length {made.length}'

    @staticmethod
    def agree(refusal, length, buffer, whole):
        """The package's own answer is that with the lent buffer, except that its buffer is never too short."""
        if refusal == 9:
            assert whole and len(whole.content) > (0 if buffer is None else len(buffer)), 'room'
        else:
            assert whole.refusal == refusal and whole.content == (b'' if buffer is None else buffer.raw[:length]), 'content'

    def trim(self, _):
        bundle, acl = self.script.bytes(), self.script.bytes()
        new, hints = buffer_of(self.script.bytes()), buffer_of(self.script.bytes())
        made = LIBRARY.trim(*lent(bundle, acl), *lent_buffer(new), *lent_buffer(hints))
        whole = trim(bundle, acl)
        if made.refusal == 9:
            assert whole, 'room'
        else:
            step = STEPS[made.step - 1][0] if made.step else None
            contents = (digits(new)[: 2 * made.acl_length], digits(hints)[: 2 * made.hints_length])
            assert (made.refusal, step, *contents) == (whole.refusal, whole.step, whole.acl.hex(), whole.hints.hex()), 'trimmed'
        answer = f'refuse {made.refusal}' if made.refusal else f'lengths {made.acl_length} {made.hints_length}'
        if made.step:
            answer = f'fail {STEPS[made.step - 1][0]}'
        return f'{answer} {digits(new)} {digits(hints)}'

    def prepare(self, _):
        form = prepare(self.script.bytes())
        if not form:
            return f'refuse {form.refusal}'
        return f'form {struct.pack(">18Q", *form.uses, form.working, form.recovery).hex()}'

    def restore(self, _):
        """One count or counter of the ledger, as a host sets it that restores a ledger."""
        index, value = self.script.number(), self.script.number()
        counts, counters, loaded, last = self.ledger.numbers
        table = [*counts, *counters]
        if index >= len(table) or value >= 1 << 32:
            raise Stop
        table[index] = value
        self.ledger = Ledger(table[: len(counts)], table[len(counts) :], loaded, last)
        return f'{Reply(0)}{ledger_words(self.ledger)}'

    def file_place(self, _):
        kind, content = self.script.number(), self.script.bytes()
        at = LIBRARY.locate_file(min(kind, 2**32 - 1), *lent(content))
        if kind < len(KINDS):
            place = locate_file(KINDS[kind], content)
            assert (place.refusal, place.record, bool(place)) == (at.refusal, index_of(at.record), bool(place.words) is False), 'place'
        return place_words(at)

    def call_place(self, letter):
        name, *inputs = self.asked({'G': 'R', 'H': 'N', 'I': 'X'}[letter])
        before = bytes(self.ledger._raw)
        at = getattr(LIBRARY, 'locate_' + name)(self.ledger._raw, *lent(*inputs))
        place = getattr(places, 'locate_' + name)(self.ledger, *inputs)
        named = (place.refusal, place.record, place.group, place.item, bool(place))
        assert named == (at.refusal, index_of(at.record), index_of(at.group), index_of(at.item), bool(place.words) is False), 'place'
        reply = getattr(self.ledger.copy(), name)(*inputs)
        assert reply.refusal == at.refusal and bytes(self.ledger._raw) == before, 'the call'
        return place_words(at)

    def verdict_place(self, _):
        bundle, acl = self.script.bytes(), self.script.bytes()
        at = LIBRARY.locate_verdict(*lent(bundle, acl))
        place, verdict = locate_verdict(bundle, acl), attest(bundle, acl)
        assert (place.refusal, place.step, bool(place)) == (verdict.refusal, verdict.step, bool(place.words) is False), 'the verdict'
        assert (place.record, place.group, place.action) == (index_of(at.record), index_of(at.group), index_of(at.action)), 'place'
        return place_words(at)

    def asked_run(self, letter):
        """The form of a run, if it has one, its inputs, its buffer, its name, and what the library is lent."""
        form = [self.script.form()] if letter in 'Qq' else []
        km0, acl, row, requests = self.script.bytes(), self.script.bytes(), self.script.row(), self.script.bytes()
        buffer = buffer_of(self.script.bytes())
        name = 'prepared_run' if form else 'run'
        structs = (CertificateStruct * max(1, len(row)))()
        for entry, (key, mechanism) in zip(structs, row):
            entry.hash[:], entry.mechanism = key, mechanism
        raw = [*lent(km0, acl), structs, len(row), *(f._raw for f in form), *lent(requests)]
        return form, (km0, acl, row, requests), buffer, name, raw

    def run_in_slot(self, letter):
        slot = self.script.number()
        form, (km0, acl, row, requests), buffer, name, raw = self.asked_run(letter)
        same = buffer_of(b'' if buffer is None else buffer.raw)
        by_value = getattr(LIBRARY, 'cabinet_' + name)(self.cabinet._raw, slot, *raw, *lent_buffer(same))
        whole = self.cabinet.copy()
        made = getattr(LIBRARY, f'cabinet_{name}_in_place')(self.cabinet._ref, slot, *raw, *lent_buffer(buffer))
        after = bytes(self.cabinet._raw)
        assert (by_value.refusal, by_value.count, bytes(by_value.cabinet), digits(same)) == (made.refusal, made.count, after, digits(buffer)), 'by value'
        if made.refusal != 9:
            run = getattr(whole, name)(slot, km0, acl, row, *form, requests)
            answers = _answers(buffer, made.count) if made.count else ()
            assert (run.refusal, run.answers, bytes(whole._raw)) == (made.refusal, answers, after), 'the package'
        return f'{self.counted(made)} {digits(buffer)}{self.slot_words(slot)}'

    def run(self, letter):
        form, (km0, acl, row, requests), buffer, name, raw = self.asked_run(letter)
        by_value = getattr(LIBRARY, name)(self.ledger._raw, *raw, *lent_buffer(buffer_of(b'' if buffer is None else buffer.raw)))
        before = self.ledger.copy()
        made = getattr(LIBRARY, name + '_in_place')(self.ledger._ref, *raw, *lent_buffer(buffer))
        after = bytes(self.ledger._raw)
        assert (by_value.refusal, by_value.count, bytes(by_value.ledger)) == (made.refusal, made.count, after), 'by value'
        if made.refusal != 9:
            self.same_run(name, before, (km0, acl, row, *form, requests), made, buffer)
        return f'{self.counted(made)} {digits(buffer)}{ledger_words(self.ledger)}'

    @staticmethod
    def counted(made):
        return f'refuse {made.refusal}' if made.refusal else f'length {made.count}'

    def same_run(self, name, before, inputs, made, buffer):
        """The same run by the package, on a ledger and in a slot of a cabinet whose other slots stay; and in a slot over 7."""
        slot = len(inputs[-1]) // 64 % 8
        counts, counters, loaded, last = before.numbers
        slots = [((place + 1,) * 64, place, 9) for place in range(8)]
        slots[slot] = (counts, loaded, last)
        cabinet = Cabinet(slots, counters)
        none = getattr(cabinet, name)(8, *inputs)
        assert none.refusal == 13 and cabinet == Cabinet(slots, counters), 'slot 8'
        runs = [getattr(before, name)(*inputs), getattr(cabinet, name)(slot, *inputs)]
        answers = _answers(buffer, made.count) if made.count else ()
        assert all((run.refusal, run.answers) == (made.refusal, answers) for run in runs), 'answers'
        counts, counters, loaded, last = self.ledger.numbers
        slots[slot] = (counts, loaded, last)
        assert before == self.ledger and cabinet == Cabinet(slots, counters), 'ledger'


def main():
    script = Script(sys.stdin.buffer.read())
    replay, number = Replay(script), 0
    while script.at < len(script.content):
        number += 1
        try:
            line = replay.answer(chr(script.take(1)[0]))
        except Stop:
            print(number, 'stop')
            break
        print(number, line)


if __name__ == '__main__':
    main()
