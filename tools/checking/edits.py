"""Whether each edit that must be refused can be made: each of its old texts stands once in its file."""
from edit_files import Misplaced, edit_of, edited
from mutating import edits, refused_bodies, weakenings
from repository import TOP


def faults(mutation, folder):
    try:
        edited(edit_of(mutation.file), folder)
    except (Misplaced, OSError) as fault:
        yield f"{mutation}: {fault}"


def check():
    of_crates, of_tree = list(edits.found()), [*weakenings.found(), *refused_bodies.found()]
    wrong = [fault for mutation in of_crates for fault in faults(mutation, TOP / "crates" / mutation.crate)]
    wrong += [fault for mutation in of_tree for fault in faults(mutation, TOP)]
    return f"{len(of_crates) + len(of_tree)} edits", wrong
