"""The codes of countries by their names: those of Debian's iso-codes, and the Fund's usual spellings."""
from __future__ import annotations

import json
import re
import unicodedata
from pathlib import Path

from facts import Facts

ISO = Path("/usr/share/iso-codes/json/iso_3166-1.json")
#: Words that names are compared without, and short forms of words. The readers of tables have the same.
LEFT_OUT = {"the", "of", "and", "de", "d", "republic", "rep", "kingdom"}
SHORT = {"dem": "democratic", "st": "saint", "fed": "federated", "is": "islands"}
#: Names that the Fund, the World Bank and others print, and that ISO 3166 hasn't.
SPELLINGS = {
    "BHS": "Bahamas",
    "BIH": "Bosnia-Herzegovina",
    "BOL": "Bolivia",
    "BRA": "Brasil",
    "BRN": "Brunei",
    "CHN": "People's Republic of China; PR China; China, P.R.; China, P.R.: Mainland",
    "CIV": "Ivory Coast",
    "COD": "Democratic Republic of the Congo; DR Congo; DRC; Congo, D.R.; Zaire",
    "COG": "Congo, Republic of; Congo-Brazzaville",
    "CPV": "Cape Verde; Cabo Verde",
    "CZE": "Czech Republic; Czechia",
    "EGY": "Egypt; Arab Republic of Egypt",
    "FSM": "Micronesia",
    "GBR": "UK; U.K.; Great Britain; United Kingdom of Great Britain and Northern Ireland",
    "HKG": "Hong Kong SAR; China, P.R.: Hong Kong; Hong Kong SAR, China",
    "IRN": "Iran; Islamic Rep. of Iran",
    "KGZ": "Kyrgyz Republic",
    "KNA": "St. Kitts and Nevis; Saint Christopher and Nevis",
    "KOR": "Korea; South Korea; Republic of Korea",
    "LAO": "Laos; Lao P.D.R.; Lao PDR; Lao People's Dem. Rep.",
    "MAC": "Macau; Macao SAR; Macao SAR, China; China, P.R.: Macao",
    "MKD": "Macedonia; North Macedonia; FYR Macedonia; Macedonia, FYR",
    "MMR": "Burma; Union of Myanmar",
    "NLD": "The Netherlands; Kingdom of the Netherlands; Holland",
    "PRK": "North Korea; DPRK",
    "PSE": "Palestine; West Bank and Gaza",
    "RUS": "Russia; Russian Federation",
    "SSD": "South Sudan",
    "STP": "São Tomé and Príncipe; São Tomé & Príncipe; Dem. Rep. of São Tomé and Príncipe",
    "SVK": "Slovak Republic; Slovakia",
    "SWZ": "Swaziland; Eswatini",
    "SYR": "Syria; Syrian Arab Republic",
    "TLS": "East Timor; Timor-Leste; Dem. Rep. of Timor-Leste",
    "TUR": "Turkey; Türkiye",
    "TWN": "Taiwan; Taiwan Province of China",
    "TZA": "Tanzania; United Rep. of Tanzania",
    "USA": "USA; U.S.A.; U.S.; US; United States of America",
    "VCT": "St. Vincent and the Grenadines; St. Vincent",
    "VEN": "Venezuela; República Bolivariana de Venezuela; R.B. de Venezuela; Venezuela, RB",
    "VNM": "Vietnam; Viet Nam",
    "XKX": "Kosovo",
    "YEM": "Yemen; Republic of Yemen",
}


def key_of(name: str) -> str:
    """What the spellings of a name have in common: its words in order of the alphabet."""
    plain = "".join(it for it in unicodedata.normalize("NFD", name) if unicodedata.category(it) != "Mn")
    words = re.split("[^a-z]+", re.sub("[.'’]", "", plain.lower()))
    found = sorted({SHORT.get(it, it) for it in words if it and it not in LEFT_OUT})
    return " ".join(found)


def codes() -> dict[str, str]:
    """The codes by the keys of names. No key is that of two countries."""
    found: dict[str, str] = {}
    for entry in json.loads(ISO.read_text())["3166-1"]:
        names = [entry.get(it, "") for it in ("name", "common_name", "official_name")]
        take(found, entry["alpha_3"], names)
    for code, names_of in SPELLINGS.items():
        take(found, code, names_of.split("; "))
    return dict(sorted(found.items(), key=lambda it: (it[1], it[0])))


def take(found: dict[str, str], code: str, names: list[str]) -> None:
    """Adds the names of a country."""
    for name in names:
        key = key_of(name)
        if key and found.setdefault(key, code) != code:
            raise ValueError(f"{name}: the name of {code} and of {found[key]}")


def lines() -> list[str]:
    """A line for each country: its code, and the keys of its names."""
    names: dict[str, list[str]] = {}
    for key, code in codes().items():
        names.setdefault(code, []).append(key)
    return [f"{code}:{';'.join(keys)}" for code, keys in names.items()]


def text(_: Facts) -> str:
    """The file of codes and names, which the page and the package for Python have alike."""
    return "".join(f"{line}\n" for line in lines())


def python(_: Facts) -> str:
    """The module of the package for Python."""
    about = '"""The codes of countries by what is left of their names. Made by tools/made."""'
    return f'{about}\nCODES = """\\\n{text(_)}"""\n'
