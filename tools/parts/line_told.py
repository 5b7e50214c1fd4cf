"""What is said to a person of an explained line, and of the schema file that lines are for: by tools/explain_line, and by tools/shell."""
import subprocess
import sys

from parts.built_program import TOP

MOST_CAUSES = 4


def in_short(causes):
    more = len(causes) - MOST_CAUSES
    return "; ".join(causes[:MOST_CAUSES]) + (f"; and {more} more" if more > 0 else "")


def faults_in_words(explained):
    """The faults of a line that is not right, one below another, and behind them the line as it was meant."""
    (name, causes), *others = explained.steps
    said = [f"{name}: {in_short(causes)}"]
    said += [f"    then {name}: {in_short(causes)}" for name, causes in others]
    said.append(f"    {'perhaps' if explained.is_way_out else 'right'}: {explained.right.decode()}")
    if explained.then:
        said.append(f"    as the table is now, that is {explained.then[0]}: {in_short(explained.then[1])}")
    return said


def explain_schema(file):
    """Prints what is wrong with a schema file, if anything is, as tools/explain_schema says it. Returns whether nothing is."""
    ran = subprocess.run([sys.executable, f"{TOP}/tools/explain_schema", file], stdout=subprocess.PIPE, encoding="utf-8", errors="replace")
    if ran.returncode:
        print(ran.stdout, end="", flush=True)
    return ran.returncode == 0
