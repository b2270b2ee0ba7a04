"""make.py: writes data/, args and stdout of the program `form_tests`. What becomes of a form is said here by hand: the sheet that it gives, or the number and the row."""
import os
import shutil

here = os.path.dirname(os.path.abspath(__file__))
examples = os.path.join(here, "..", "..", "examples")
MARK = b"\xef\xbb\xbf"
LONGEST = 32768


def taken_from(*path):
    with open(os.path.join(examples, *path), "rb") as file:
        return file.read()


def rows_of(sheet):
    """The rows of a sheet: no row stands for a line that counts, nor for `sheet=1`."""
    kept = [line for line in sheet.decode().splitlines() if line.split("=")[0] not in ("types", "type", "transitions", "behaviors", "ports", "program")]
    return [line.replace("places=", "type=").replace("=", ",").split(",") for line in kept if line != "sheet=1"]


def form(rows, by=",", end="\n", width=0, note=""):
    """Rows with empty cells up to a width, and a note in a cell of its own."""
    return "".join(by.join(row + [""] * (width - len(row)) + [note] * bool(note)) + end for row in rows).encode()


pair, sensor = taken_from("pair", "sheet.txt"), taken_from("sensor", "sheet.txt")
rows, tickets = rows_of(pair), rows_of(sensor)
plain, semicolons, tabs = (form(rows, by) for by in ",;\t")
count = len(rows)
third = rows.index(["tran", "0", "1"]) + 1  # a row with two values


def with_row(number, row, by=","):
    """The form whose row of that number is another."""
    lines = form(rows, by).split(b"\n")
    lines[number - 1] = row
    return b"\n".join(lines)


def put_in(number, row):
    lines = plain.split(b"\n")
    lines.insert(number - 1, row)
    return b"\n".join(lines)


every_byte = bytes(b for b in range(256) if b != 10)
empty_rows = {"ends": b"\n", "returns": b"\r\n", "commas": b",,,,,\n", "notes": b",,# a note, and a comma\n", "blank_note": b"#\r\n"}

# a form, and the sheet that it gives
taken = {}
for name, by in (("commas", ","), ("semicolons", ";"), ("tabs", "\t")):
    taken[name] = form(rows, by), pair
    taken[f"{name}_cr_lf_wide_marked"] = MARK + form(rows, by, "\r\n", 6), pair
    taken[f"{name}_with_notes"] = form(rows, by, "\r\n", 6, "# ;,\t\"=# of a note"), pair
    taken[f"{name}_with_notes_at_once"] = form(rows, by).replace(b"\n", b"# of a note\n"), pair
    taken[f"{name}_with_tickets"] = form(tickets, by), sensor
    taken[f"{name}_then_empty_rows"] = form(rows, by) + (by * 5 + "\r\n").encode() * 40, pair
taken |= {f"empty_{name}": (plain + row * 3, pair) for name, row in empty_rows.items()}
taken |= {
    "empty_row_without_end": (plain + b",,,", pair),
    "note_without_end": (plain + b"# a note", pair),
    "empty_rows_of_every_kind": (plain + b"".join(empty_rows.values()) + b",,", pair),
    "note_of_every_byte": (plain.replace(b"\n", b"#" + every_byte + b"\n", 1), pair),
    "empty_rows_to_the_last_byte": (plain + b"\n" * (LONGEST - len(plain)), pair),
    "sheet_1": (b"sheet,1\n" + plain, pair),
    "sheet_1_by_semicolons": (b"sheet;1\n" + semicolons, pair),
    "equals_in_the_first_row": (plain.replace(b",", b"=", 1), pair),
}

# a form, the number and the row
refused = {}
for name, by, row in (
    ("semicolon_among_commas", ",", b"tran;0;1"),
    ("one_semicolon_among_commas", ",", b"tran,0;1"),
    ("tab_among_commas", ",", b"tran\t0\t1"),
    ("comma_among_semicolons", ";", b"tran,0,1"),
    ("one_comma_among_semicolons", ";", b"tran;0,1"),
    ("empty_commas_among_semicolons", ";", b"tran;0;1,,"),
    ("tab_among_semicolons", ";", b"tran\t0\t1"),
    ("comma_among_tabs", "\t", b"tran\t0,1"),
    ("semicolon_among_tabs", "\t", b"tran\t0;1"),
    ("blank_before_a_note", ",", b"tran,0,1 # a note"),
    ("note_before_a_value", ",", b"tran,0# a note,1"),
    ("note_in_quotation_marks", ",", b'tran,0,1,"# a note, and a comma"'),
    ("value_in_quotation_marks", ",", b'tran,"0","1"'),
    ("empty_cell_between", ",", b"tran,0,,1"),
):
    refused[name] = with_row(third, row, by), 2, third
refused |= {f"{name}_between": (put_in(third, row.rstrip(b"\n")), 2, third) for name, row in empty_rows.items()}
refused |= {
    "nothing": (b"", 2, 1),
    "empty_rows_alone": (b",,,\n" * 3, 2, 1),
    "empty_row_first": (b",,,\n" + plain, 2, 1),
    "note_first": (b"# a note\n" + plain, 2, 1),
    "semicolons_after_a_note": (semicolons.replace(b";", b"#;", 1), 2, 1),
    "key_in_quotation_marks": (semicolons.replace(b"depth", b'"depth"'), 2, 1),
    "key_in_capitals": (semicolons.replace(b"depth", b"DEPTH"), 2, 1),
    "key_after_a_blank": (b" " + semicolons, 2, 1),
    "colons": (form(rows, ":"), 2, 1),
    "blanks": (form(rows, " "), 2, 1),
    "returns_alone": (form(rows, ",", "\r"), 2, 1),
    "two_bytes_a_letter": (b"\xff\xfe" + plain.decode().encode("utf-16-le"), 2, 1),
    "two_marks": (MARK + MARK + plain, 2, 1),
    "last_row_without_end": (plain[:-1], 2, count),
    "row_after_empty_rows": (plain + b",,,\n\n" + b"do,del,0\n", 5, count + 1),
    "byte_after_empty_rows": (plain + b"\n\n,,x", 5, count + 1),
    "no_type_but_empty_rows": (b"depth;0\n;;\n;;\n", 3, 2),
    "no_initial_but_empty_rows": (b"depth;0\ntype;2\n;;\n;;\n", 2, 3),
    "own_source": (with_row(third, b"tran\t1\t1", "\t"), 4, third),
    "too_long_by_an_empty_row": (plain + b"\n" * (LONGEST + 1 - len(plain)), 1, 0),
}


def write(name, content):
    with open(os.path.join(here, name), "wb") as file:
        file.write(content)


shutil.rmtree(os.path.join(here, "data"), ignore_errors=True)
os.makedirs(os.path.join(here, "data"))
args, said = [], []
for name, (text, sheet) in taken.items():
    args, said = args + [name], said + [f"{name}.csv refused=0 row=0\n".encode() + sheet]
    write(f"data/{name}.csv", text)
for name, (text, number, row) in refused.items():
    args, said = args + [name], said + [f"{name}.csv refused={number} row={row}\n".encode()]
    write(f"data/{name}.csv", text)
write("args", "".join(f"{name}.csv\n" for name in args).encode())
write("stdout", b"".join(said))
