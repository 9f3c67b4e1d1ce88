/** Words in cells of tables that are no member's. Made by tools/made from tools/cells.py: do not edit. */

/** What stands for a missing value, or repeats the cell above. */
export const BLANKS: readonly string[] = [
  "NaN", "nan", "-NaN", "-nan", "NaT", "NA", "<NA>", "#NA", "N/A", "n/a", "N.A.", "n.a.", "n.a", "NULL", "Null",
  "null", "None", "missing", "undefined", "1.#IND", "-1.#IND", "1.#QNAN", "-1.#QNAN", "N/D", "n/d", "n.d.", "k.A.",
  "s.o.", "...", "..", "…", "(blank)", "(leer)", "(Leer)", "(vide)", "(vuoto)", "ditto", "Ditto", "idem", "Idem",
  "id.", "do.", "\"", "“", "”", "„", "〃", "''", ",,", "k. A.", ". . .", "(en blanco)", "not available",
  "Not available",
];

/** Letters that have neither width nor ink, apart from blanks. */
export const UNSEEN = "\u00ad\u200b\u200c\u200d\u200e\u200f\u2060\ufeff";

/** What a spreadsheet's error is as a whole. */
export const ERRORS: readonly string[] = [
  "#(?![0-9])\\S+",
  "(?:Err|Error|Erro|Erreur|Errore|Fehler|Fel|Feil|Fejl|Fout|Virhe|Hiba|Chyba|Napaka|Błąd|Hata)\\s?:\\s?[0-9]{3}",
  "(?:Ошибка|Помилка|Грешка|エラー|错误|錯誤|오류)\\s?:\\s?[0-9]{3}",
];

/** True and false as spreadsheets write them, in small letters. */
export const TRUE: readonly string[] = [
  "true", "wahr", "vrai", "verdadero", "vero", "verdadeiro", "waar", "prawda", "sant", "sann", "igaz", "истина",
];
export const FALSE: readonly string[] = [
  "false", "falsch", "faux", "falso", "onwaar", "fałsz", "falskt", "usann", "falsk", "hamis", "ложь",
];

/** Raised digits and letters, in the order of the plain ones. */
export const RAISED_DIGITS = "⁰¹²³⁴⁵⁶⁷⁸⁹";
export const RAISED_LETTERS = "ᵃᵇᶜᵈᵉᶠᵍʰⁱʲᵏˡᵐⁿᵒᵖqʳˢᵗᵘᵛʷˣʸᶻ";
