"""Tests the completion for bash: calls its function with the words of a command line, as bash does.
It must offer the options of each help text, and after one that takes a value none of them."""
from __future__ import annotations

from tests.pages import help_texts
from tests.pages.help_texts import TOOLS
from tests.support import run
from tests.support.run import ROOT

FILES = "a name,folder,station1,station2"
# Prints what is offered with the cursor in the last word
SCRIPT = r"""
. "$0"
COMP_WORDS=("$@")
COMP_CWORD=$(($# - 1))
COMPREPLY=()
function=$(complete -p "${1##*/}" | sed 's/.* -F \([^ ]*\) .*/\1/')
"$function" "$1" "${COMP_WORDS[COMP_CWORD]}" "${COMP_WORDS[COMP_CWORD - 1]}"
for reply in ${COMPREPLY[@]+"${COMPREPLY[@]}"}; do printf '%s\n' "$reply"; done
"""


class Completion(help_texts.Case):
    def setUp(self) -> None:
        super().setUp()
        self.path("folder").mkdir()
        for name in "station1", "station2", "a name":
            self.write(name, "")

    def offered(self, *words: str) -> run.Run:
        """What is offered with the cursor in the last word."""
        completion = ROOT / "completions" / "flutejoin.bash"
        return self.command(["bash", "-c", SCRIPT, completion, *words])

    def offers(self, wanted: str, *words: str) -> None:
        """Checks that these are offered with the cursor in the last word."""
        done = self.offered(*words)
        offered = sorted(done.lines())
        is_told = done.status == 0 and not done.err
        names = sorted(wanted.split(",")) if wanted else []
        self.holds(f"{words}", is_told and offered == names, f"{done}, and not {names}")

    def offers_all(self, *rows: tuple[str, str]) -> None:
        """Checks rows of offers and words; an empty last word is written as a space."""
        for wanted, words in rows:
            self.offers(wanted, *words.split(" "))

    def names_of(self, command: str) -> str:
        """The options in a help text, by their long names if they have one."""
        return ",".join({option.name for option in self.options_of(command).values()})

    def test_commands(self) -> None:
        commands = ",".join((*self.commands(), "help"))
        self.offers_all(
            *((commands, "flutejoin "), (commands, "./bin/flutejoin "), ("", "flutejoin frob ")),
            *((commands, "flutejoin help "), ("", "flutejoin help join ")),
            *(("join", "flutejoin j"), ("--help,--version", "flutejoin --")),
        )

    def test_options(self) -> None:
        for command in self.commands():
            options = self.names_of(f"flutejoin {command}")
            self.offers(f"-,{options}", "flutejoin", command, "-")
        for tool in TOOLS:
            self.offers(f"-,{self.names_of(tool)}", tool, "-")

    def test_each_value(self) -> None:
        """No option is offered after one that takes a value, and what is offered after another one
        is what is offered without it."""
        for command in (*(f"flutejoin {it}" for it in self.commands()), *TOOLS):
            without = self.offered(*command.split(), "").out
            for option in {*self.options_of(command).values()}:
                done = self.offered(*command.split(), option.name, "")
                is_right = b"--" not in done.out if option.value else done.out == without
                self.holds(f"{command} {option.name}", is_right, done)

    def test_values_of_options(self) -> None:
        for option in "source", "tsi", "toi", "fdt", "length", "symbol", "block":
            self.offers("", "flutejoin", "info", f"--{option}", "")
        self.offers("", "flutejoin", "join", "--memory", "")
        self.offers_all(
            ("--tsi,--toi", "flutejoin extract -o out --t"),
            ("--source,--symbol", "flutejoin info -o out --s"),
        )

    def test_files(self) -> None:
        for command in self.commands():
            if command != "packet":
                self.offers(FILES, "flutejoin", command, "")
        self.offers_all(
            ("station1,station2", "flutejoin join -o all station1 sta"),
            (FILES, "flutejoin join -o "),
            ("a name", "flutejoin merge -o a"),
            ("--json,--help", "flutejoin packet "),
        )

    def test_tools(self) -> None:
        stations = "station1,station2"
        self.offers_all(
            *((FILES, "flutejoin-capture "), ("folder", "flutejoin-capture --port 4001 -o ")),
            *(("", "flutejoin-capture --port "), ("", "flutejoin-capture --from ")),
            *(("", "flutejoin-capture --group "), ("lo", "flutejoin-receive --interface lo")),
            *(("folder", "flutejoin-receive --port 4001 -o f"), ("", "flutejoin-receive --group ")),
            *(("", "flutejoin-receive --most "), (FILES, "flutejoin-receive --config ")),
            *(("folder", "flutejoin-station -o f"), (FILES, "flutejoin-station --config ")),
            ("", "flutejoin-station --keep-raw "),
            ("--every", "flutejoin-station -o folder --e"),
            *((FILES, "flutejoin-files "), ("folder", "flutejoin-files -o f")),
            *((FILES, "flutejoin-files --fdt "), (FILES, "flutejoin-files --from ")),
            *(("", "flutejoin-receive --from "), ("", "flutejoin-files --most ")),
            *((FILES, "flutejoin-gather "), ("folder", "flutejoin-gather -o f")),
            *((FILES, "flutejoin-map "), (FILES, "flutejoin-map --flutejoin ")),
            (stations, "flutejoin-map -o map.svg --tsi 7 --toi 1 station"),
            *((FILES, "flutejoin-mend -o "), (stations, "flutejoin-mend -o mended station")),
            *((FILES, "flutejoin-repair -o "), (FILES, "flutejoin-repair --fdt ")),
            *(("", "flutejoin-repair --base "), (stations, "flutejoin-repair -o more sta")),
            (FILES, "flutejoin-values "),
            (stations, "flutejoin-values --tsi 7 --symbol 1/2 sta"),
            *(("", "flutejoin-values --without "), (FILES, "flutejoin-values -o ")),
            ("--symbol,--source", "flutejoin-values --s"),
        )
