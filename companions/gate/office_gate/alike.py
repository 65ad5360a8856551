"""Names and texts that people take for each other: they differ in case or in form alone, or mix letters of two scripts."""
import unicodedata

TOGETHER = ("CJK", "HIRAGANA", "KATAKANA", "BOPOMOFO", "HANGUL")
"""scripts that one name may have together"""


def folded(text: str) -> str:
    """Returns a text without its case and its forms of letters: texts that have the same are alike."""
    return unicodedata.normalize("NFKC", unicodedata.normalize("NFKC", text).casefold())


def scripts(text: str) -> set[str]:
    """Returns the scripts of the letters in a text, by the first words of their names in Unicode."""
    letters = (it for it in unicodedata.normalize("NFKC", text) if unicodedata.category(it).startswith("L"))
    names = {unicodedata.name(it, "UNKNOWN").split()[0] for it in letters}
    return {"EAST ASIAN" if it in TOGETHER else it for it in names}
