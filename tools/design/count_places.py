#!/usr/bin/env python3
"""Counts, in the code of a commit or of the working tree, the places of the points of docs/DESIGN-PASS.md.

  count_places.py [COMMIT] [--list]

Each point has a few patterns over the lines of crates/*/src, or over whole functions. What they find is printed as a number,
with --list each place too."""
import re
import subprocess
import sys


def sources(commit):
    """The files of crates/*/src and their texts."""
    if commit is None:
        names = subprocess.run(["git", "ls-files", "crates/*/src/*.rt"], capture_output=True, text=True, check=True).stdout.split()
        return {name: open(name).read() for name in names}
    names = subprocess.run(["git", "ls-tree", "-r", "--name-only", commit, "crates"], capture_output=True, text=True, check=True).stdout.split()
    names = [name for name in names if re.fullmatch(r"crates/\w+/src/.*\.rt", name)]
    return {name: subprocess.run(["git", "show", f"{commit}:{name}"], capture_output=True, text=True, check=True).stdout for name in names}


def lines(files, pattern):
    """The lines that the pattern finds, without comments."""
    found = []
    for name, text in sorted(files.items()):
        for number, line in enumerate(text.splitlines(), 1):
            if not line.lstrip().startswith("//") and re.search(pattern, line):
                found.append(f"{name}:{number}: {line.strip()}")
    return found


def functions(files):
    """Each function: its file, its line, its name, and its text from `fn` to its end."""
    for name, text in sorted(files.items()):
        for match in re.finditer(r"^( *)(?:pub(?:\(\w+\))? )?(?:const |final )?(?:unsafe )?(?:extern \"C\" )?fn (\w+)", text, re.M):
            end = re.compile(rf"^{match.group(1)}}}$|;\n", re.M).search(text, match.end())
            yield name, text.count("\n", 0, match.start()) + 1, match.group(2), text[match.start() : end.end() if end else len(text)]


def answering(files, result, clause):
    """The functions with such a result, one of whose clauses has this pattern."""
    found = []
    for name, number, function, text in functions(files):
        head = text.split("\n{\n")[0]
        if re.search(result, head) and re.search(clause, head):
            found.append(f"{name}:{number}: fn {function}")
    return found


POINTS = {
    "1 refusal numbers answered": lambda f: answering(f, r"-> u64\b", r"ensures[^\n]*(refusal|first_of|first_number)"),
    "1 refusal numbers in fields": lambda f: lines(f, r"\brefusal: u64,|Refused\(u64\)|Stopped\(u64"),
    "1 own enums like Result": lambda f: lines(f, r"^pub enum (Conversion|Printed|Load)\b"),
    "1 zeros for none": lambda f: lines(f, r"^(pub )?fn numbered_\w+\("),
    "1 numbers for kinds": lambda f: lines(f, r"^\s*(\w+: )?match (list|operation) \{|fn \w+\(.*\b(list|operation): u64|^    operation: u64,|pub operation: u64,\n    pub words"),
    "1 groups as numbers": lambda f: lines(f, r"Group\(u64\)|^(pub )?fn \w+\(.*group: u64|^    group: u64,"),
    "1 flags": lambda f: lines(f, r"^    pub (ok|good): bool|^    let mut good = "),
    "1 marks, freight and hubs as numbers, by the third count": lambda f: lines(f, r"\.(closed|struck) (!=|==) 0|\bcode <= 2\b|\bkind == 4\b|^        4 => 0"),
    "2 twins": lambda f: lines(
        f,
        r"^(pub )?fn (read_(category|entry|element)|numbered_(category|entry|element)|add_(category|entry|element)|admit_(entry|element)"
        r"|capped_(unstruck|shares)_of|entry_sums|capped_sums|u32_at|u64_at|(categories|entries|elements)_in|print_(division|preview)"
        r"|read_full|read_input|put_bytes|(post|enrol|quote)(_sound)?)\b|let mut (places|operation|provision|index|slots) = \[0u",
    ),
    "2 twins, by the second count": lambda f: lines(
        f, r"^(pub )?fn set_(closed|struck)\b|^pub struct (Line|ConvertedLine)\b|fn (print_line|put_line)\b|if !(book_words::)?is_sound\(|pub fn (divide|preview)\(&mut self"
    ),
    "2 twins, by the third count": lambda f: lines(f, r"^const SIGN\b|^pub struct (Amounts|Intensity)\b|^fn (capped_total|quotient|nearest_thousandth)\b|^pub fn capped_with_"),
    "3 loops by hand": lambda f: lines(f, r"^\s*('\w+: )?while "),
    "3 walks by number, by the third count": lambda f: lines(f, r"for \w+ in 0\.\.|\(0\.\."),
    "4 conversions by hand": lambda f: lines(f, r"^(pub )?fn (byte|four|u32_at|u64_at|is_kind|refusal_of|value_of|numbers_of|unit_by|waiting_of|cell_of|call_of)\b"),
    "4 conversions by hand, by the second count": lambda f: lines(f, r"\bfn (place_numbers|operation_of|post_of|enrol_of|quote_of|stop_at|answer_at)\b|^pub fn read_(category|entry|element)_record"),
    "4 defaults and answers by hand, by the third count": lambda f: lines(f, r"^impl Default for|^pub const NOTHING|map_err\(Unprinted|^    match answer \{|= Pools \{$|self\.good as u64|limit as u64"),
    "5 soundness in contracts": lambda f: lines(f, r"requires.*\bsound book\.(old|now) ≡ true"),
    "5 sums in contracts": lambda f: lines(f, r"requires.*sums(\.old)? ≡ sums_of book"),
    "5 counted books in contracts": lambda f: lines(f, r"requires.*CountsWithin book\.now"),
    "5 the room of a sheet in contracts": lambda f: lines(f, r"requires.*length out\.old ≡ sheet_room"),
    "5 rows that fit in contracts": lambda f: lines(f, r"requires.*(HeldFits|RowsFit|SlotsFit)"),
    "5 the length of a book in contracts": lambda f: lines(f, r"requires.*book_length ≤ length "),
    "5 sums of weights in contracts": lambda f: lines(f, r"requires.*total(\.now)? ≡ sum_of "),
    "5 places in a file in contracts": lambda f: lines(f, r"requires.*at(\.now)? < 2 \^ 41"),
    "5 a text and a place in it": lambda f: lines(f, r"fn \w+\(.*out: &mut \[u8\], at: usize"),
    "5 the lent words in contracts": lambda f: lines(f, r"ensures same_words "),
    "5 the program's parts together": lambda f: lines(f, r"ensures.*stage_of "),
    "5 listed members": lambda f: lines(f, r"requires.*(Listed book\.now|≡ members_of book)"),
    "5 what readers say of the words, by the third count": lambda f: lines(f, r"ensures book \{"),
    "5 a printed text, by the third count": lambda f: lines(f, r"ensures result_value \{ printed_numbers"),
    "5 the output kept, by the third count": lambda f: lines(f, r"ensures ok_after"),
    "5 one slice as long as another, by the third count": lambda f: lines(f, r"requires.*length \w+\.(old|now) ≡ length \w"),
    "6 arrays with a length beside": lambda f: lines(f, r"\[\.\.(count|used|pairs|shares|lent|come|done|got|at)( \+ 1)?\]"),
    "6 parallel arrays": lambda f: lines(f, r"first_of\($|first_of\(&\[|quotients: &|remainders: &|operation: &(mut )?\[u64\]|index: &(mut )?\[u64\]"),
    "6 searches by hand": lambda f: lines(f, r"^fn words_below"),
    "6 weights behind the words": lambda f: lines(f, r"memory: \[u64; memory::LENGTH \+"),
    "7 switches on a step": lambda f: lines(f, r"^    match (operation|list|table) \{"),
    "7 switches, by the second count": lambda f: lines(f, r"^        match (operation|table|self) \{|^pub enum Measure\b"),
    "7 sides one after the other, by the third count": lambda f: lines({n: t for n, t in f.items() if "book_shares" in n}, r"Side::(Operation|Provision)\b"),
}


def main():
    arguments = [argument for argument in sys.argv[1:] if argument != "--list"]
    files = sources(arguments[0] if arguments else None)
    for point, find in POINTS.items():
        found = find(files)
        print(f"{point}: {len(found)}")
        if "--list" in sys.argv:
            for place in found:
                print("    " + place)


if __name__ == "__main__":
    main()
