"""What cells of tables say besides members: words for missing values, errors of spreadsheets, truths, raised marks. The
page's reader of tables and the package for Python have the same from here; page/tables/words.txt has the cases."""
from __future__ import annotations

import json
import textwrap
from collections.abc import Iterable

from facts import Facts

MADE = "Made by tools/made from tools/cells.py: do not edit."
#: What programs write for a missing value (pandas, R, Julia, JavaScript, databases, pivot tables), what tables print
#: in its place, and marks that repeat the cell above. Capitals count: `NIL` and `NAN` may be codes, and `none` is an
#: answer.
BLANKS = [
    *"NaN nan -NaN -nan NaT NA <NA> #NA N/A n/a N.A. n.a. n.a NULL Null null None missing undefined 1.#IND".split(),
    *"-1.#IND 1.#QNAN -1.#QNAN N/D n/d n.d. k.A. s.o. ... .. … (blank) (leer) (Leer) (vide) (vuoto) ditto".split(),
    *"Ditto idem Idem id. do. \" “ ” „ 〃 '' ,,".split(),
    *["k. A.", ". . .", "(en blanco)", "not available", "Not available"],
]
#: Letters that have neither width nor ink, apart from blanks.
UNSEEN = "\u00ad\u200b\u200c\u200d\u200e\u200f\u2060\ufeff"
#: A number sign before no number, as `#N/A`, `#NV`, `#REF!`, `#¿NOMBRE?` and `####`; `Err:502` in the languages of
#: LibreOffice.
ERRORS = [
    r"#(?![0-9])\S+",
    r"(?:Err|Error|Erro|Erreur|Errore|Fehler|Fel|Feil|Fejl|Fout|Virhe|Hiba|Chyba|Napaka|Błąd|Hata)\s?:\s?[0-9]{3}",
    r"(?:Ошибка|Помилка|Грешка|エラー|错误|錯誤|오류)\s?:\s?[0-9]{3}",
]
#: True and false as spreadsheets write them, in small letters.
TRUE = "true wahr vrai verdadero vero verdadeiro waar prawda sant sann igaz истина".split()
FALSE = "false falsch faux falso onwaar fałsz falskt usann falsk hamis ложь".split()
#: Digits and letters above the line in the order of the plain ones; there is no raised q.
DIGITS = "⁰¹²³⁴⁵⁶⁷⁸⁹"
LETTERS = "ᵃᵇᶜᵈᵉᶠᵍʰⁱʲᵏˡᵐⁿᵒᵖqʳˢᵗᵘᵛʷˣʸᶻ"


def lines(words: Iterable[str]) -> str:
    """Words in quotes, in lines of a list."""
    quoted = ", ".join(json.dumps(it, ensure_ascii=False).replace(" ", "\0") for it in words)
    filled = textwrap.wrap(f"{quoted},", 116, break_long_words=False, break_on_hyphens=False)
    return "\n".join(f"  {it}" for it in filled).replace("\0", " ")


def text(words: str) -> str:
    return json.dumps(words, ensure_ascii=False)


def rows(words: Iterable[str], before: str = "    ") -> str:
    """Words in quotes, each in a line; a quote is in single ones, as black has it."""
    return "".join(f"{before}{text(it)},\n" for it in words).replace(r'"\""', "'\"'")


PAGE = f"""/** Words in cells of tables that are no member's. {MADE} */

/** What stands for a missing value, or repeats the cell above. */
export const BLANKS: readonly string[] = [
{lines(BLANKS)}
];

/** Letters that have neither width nor ink, apart from blanks. */
export const UNSEEN = {json.dumps(UNSEEN)};

/** What a spreadsheet's error is as a whole. */
export const ERRORS: readonly string[] = [
{rows(ERRORS, "  ")}];

/** True and false as spreadsheets write them, in small letters. */
export const TRUE: readonly string[] = [
{lines(TRUE)}
];
export const FALSE: readonly string[] = [
{lines(FALSE)}
];

/** Raised digits and letters, in the order of the plain ones. */
export const RAISED_DIGITS = {text(DIGITS)};
export const RAISED_LETTERS = {text(LETTERS)};
"""
PYTHON = f'''"""Words in cells of tables that are no member's. {MADE}"""

#: What stands for a missing value, or repeats the cell above.
BLANKS = (
{rows(BLANKS)})

#: Letters that have neither width nor ink, apart from blanks.
UNSEEN = {json.dumps(UNSEEN)}

#: What a spreadsheet's error is as a whole.
ERRORS = (
{rows(ERRORS)})

#: True and false as spreadsheets write them, in small letters.
TRUE = (
{rows(TRUE)})
FALSE = (
{rows(FALSE)})

#: Raised digits and letters, in the order of the plain ones.
RAISED = {text(DIGITS + LETTERS.replace("q", ""))}
'''


def page(_: Facts) -> str:
    """The words for the page."""
    return PAGE


def python(_: Facts) -> str:
    """The words for the package for Python."""
    return PYTHON
