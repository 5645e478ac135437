"""Names of German Länder and parties, and words that head the columns of tables, for tools/from-spreadsheet."""
import re

LANDS = (
    ("SH", "Schleswig-Holstein"), ("HH", "Hamburg"), ("NI", "Niedersachsen"), ("HB", "Bremen"), ("NW", "Nordrhein-Westfalen"),
    ("HE", "Hessen"), ("RP", "Rheinland-Pfalz"), ("BW", "Baden-Württemberg"), ("BY", "Bayern"), ("SL", "Saarland"), ("BE", "Berlin"),
    ("BB", "Brandenburg"), ("MV", "Mecklenburg-Vorpommern"), ("SN", "Sachsen"), ("ST", "Sachsen-Anhalt"), ("TH", "Thüringen"),
)
PREFIXES = ("freieundhansestadt", "freiehansestadt", "freistaat", "land")
# Short names of parties whose own ones are long; others keep the letters that a name may have.
PARTIES = {"buendnis90diegruenen": "GRUENE", "gruene": "GRUENE", "diegruenen": "GRUENE", "dielinke": "LINKE", "linke": "LINKE", "linkepds": "LINKE",
           "freiewaehler": "FW", "diepartei": "PARTEI", "afd": "AFD", "alternativefuerdeutschland": "AFD"}
MINORITIES = {"SSW"}  # parties of national minorities
SUMS = {"summe", "summen", "insgesamt", "gesamt", "gesamtsumme", "gesamtergebnis", "total", "sum", "bund", "bundesgebiet", "deutschland", "gueltig",
        "gueltigestimmen", "gueltigezweitstimmen", "validvotes"}
PEOPLE = {"einwohner", "bevoelkerung", "deutschebevoelkerung", "population", "people"}
OTHERS = {"sonstige", "sonstigeparteien", "uebrige", "uebrigeparteien", "andere", "andereparteien", "others", "other"}
PASSED = {"nr", "nummer", "landnr", "schluessel", "kuerzel", "wahlberechtigte", "waehler", "waehlende", "waehlerinnenundwaehler", "wahlbeteiligung",
          "ungueltig", "ungueltige", "ungueltigestimmen", "ungueltigezweitstimmen"}  # columns that are passed over
NO_PARTY = {"", "parteilos", "einzelbewerber", "einzelbewerberin", "unabhaengig", "independent"}
HEADS = {  # the columns of the table of winners
    "number": {"nr", "wkr", "wkrnr", "nummer", "wahlkreisnummer", "wahlkreisnr", "number"},
    "name": {"wahlkreis", "wahlkreisname", "name", "constituency"},
    "land": {"land", "bundesland", "state"},
    "party": {"partei", "party", "parteidessiegers", "siegerpartei", "sieger"},
    "first": {"erststimmen", "erststimmendessiegers", "erststimmensieger", "firstvotes", "first"},
    "valid": {"gueltigeerststimmen", "gueltige", "gueltig", "gueltigestimmen", "validfirstvotes", "valid"},
}
MOST = 12  # characters of a name


def key(text):
    """A text by which names are compared: small letters and digits alone, umlauts in two letters."""
    text = text.casefold()
    for letter, letters in (("ä", "ae"), ("ö", "oe"), ("ü", "ue"), ("ß", "ss")):
        text = text.replace(letter, letters)
    return re.sub(r"[^a-z0-9]", "", text)


def short(text):
    """A name of the returns for one of a table: letters, digits, `_` and `-`, at most twelve."""
    if key(text) in PARTIES:
        return PARTIES[key(text)]
    for letter, letters in (("ä", "ae"), ("ö", "oe"), ("ü", "ue"), ("Ä", "AE"), ("Ö", "OE"), ("Ü", "UE"), ("ß", "ss")):
        text = text.replace(letter, letters)
    return re.sub(r"[^A-Za-z0-9_]+", "-", text).strip("-")[:MOST].strip("-")


def unlike(name, taken):
    """A name that is not taken yet: that one, or its beginning with a number after it."""
    number, new = 1, name
    while new in taken:
        number += 1
        new = name[:MOST - len(str(number))] + str(number)
    return new


def land_of(text):
    """The short name of a Land by its short or full name, if it is one of the sixteen."""
    word = key(text)
    for prefix in PREFIXES:
        if word.startswith(prefix) and len(word) > len(prefix):
            word = word[len(prefix):]
    for code, name in LANDS:
        if word in (code.casefold(), key(name)):
            return code
    return None
