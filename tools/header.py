"""Reads libagc/include/agc.h: its numbers, its texts, its structs as they lie in memory, and its calls."""
import re
from typing import NamedTuple

SIZES = {"uint8_t": 1, "bool": 1, "char": 1, "uint16_t": 2, "uint32_t": 4, "int32_t": 4, "uint64_t": 8, "size_t": 8, "*": 8}
ABOUT = r"(?:/\*((?:(?!\*/).)*)\*/\n)?"


class Field(NamedTuple):
    """A field of a struct: `count` is 0 where it is no array. A pointer is to as many as the field `length` says."""
    name: str
    kind: str
    count: int
    offset: int
    length: str


class Struct(NamedTuple):
    about: str
    fields: list
    size: int
    alignment: int


class Parameter(NamedTuple):
    """What a call takes. A pointer is to one of `kind`, to an array of `count`, or to as many as the parameter `length` says."""
    text: str
    name: str
    kind: str
    is_pointer: bool
    is_const: bool
    count: str
    length: str


class Call(NamedTuple):
    about: str
    answer: str
    takes: list


def bare(text):
    return re.sub(r"/\*.*?\*/", " ", text, flags=re.DOTALL)


def sentence(comment):
    return " ".join((comment or "").split())


class Header:
    """`enums` has each enum's members, by the name of its first: a number and what is said of it. `texts` has what agc_code_text
    and agc_reply_text say, by the members' names, and for any other number by the empty name."""

    def __init__(self, text):
        self.enums = {}
        for body in re.findall(r"enum \{(.*?)\};", text, re.DOTALL):
            members = re.findall(r"(AGC_\w+) = (\d+),?(?:\s*/\*(.*?)\*/)?", body, re.DOTALL)
            found = {name: (int(number, 8 if number.startswith("0") else 10), sentence(about)) for name, number, about in members}
            self.enums[members[0][0]] = found
        self.numbers = {name: number for found in self.enums.values() for name, (number, _) in found.items()}
        self.texts = {call: {name: said for name, said in re.findall(r'(?:case (\w+)|default): return "(.*)";', body)}
                      for call, body in re.findall(r"\*(agc_\w+_text)\(.*?\{\n(.*?)\n\}", text, re.DOTALL)}
        self.structs = {}
        for about, body, name in re.findall(ABOUT + r"(?:typedef|AGC_TYPE) struct \{([^}]*)\}\s*(\w+);", text, re.DOTALL):
            self.structs[name] = self.struct_of(sentence(about), bare(body))
        self.calls = {}
        pattern = ABOUT + r"(?:AGC_USED )?(uint32_t|Agc\w+) (agc_\w+)\(([^(){};]*)\);"
        for about, answer, name, takes in re.findall(pattern, text, re.DOTALL):
            self.calls[name] = Call(sentence(about), answer, [] if takes == "void" else self.parameters_of(takes))

    def size_of(self, kind):
        """The size and the alignment of a type."""
        if kind in self.structs:
            return self.structs[kind].size, self.structs[kind].alignment
        return SIZES[kind], SIZES[kind]

    def count_of(self, text):
        return int(self.numbers.get(text, text) or 0)

    def struct_of(self, about, body):
        place, widest, fields = 0, 1, []
        for kind, star, names in re.findall(r"(\w+) (\*?)([^;*]+);", body):
            kind = kind.replace("AgcAction", "AgcRequest")
            size, alignment = self.size_of(star or kind)
            for name, count in re.findall(r"(\w+)(?:\[(\w+)\])?", names):
                place = -(-place // alignment) * alignment
                if kind == "size_t" and fields and fields[-1].length:
                    fields[-1] = fields[-1]._replace(length=name)
                fields.append(Field(name, kind, self.count_of(count), place, star))
                place += size * (self.count_of(count) or 1)
            widest = max(widest, alignment)
        return Struct(about, fields, -(-place // widest) * widest, widest)

    @staticmethod
    def parameters_of(text):
        found = []
        for it in (" ".join(one.split()) for one in text.split(",")):
            const, kind, star, name, count = re.fullmatch(r"(const )?(\w+) (\*?)(\w+)(?:\[(\w+)\])?", it).groups()
            kind = kind.replace("AgcAction", "AgcRequest")
            if kind == "size_t":
                found[-1] = found[-1]._replace(length=name)
            found.append(Parameter(it, name, kind, bool(star or count), bool(const), count or "", ""))
        return found
