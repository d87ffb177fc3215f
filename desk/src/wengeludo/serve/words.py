# SPDX-License-Identifier: LicenseRef-Wengeludo
"""The words of the pages, in English and German. The explanations of a sheet stay in English."""

from __future__ import annotations

from typing import Callable, Dict

Say = Callable[[str], str]

GERMAN: Dict[str, str] = {
    # the frame
    "Lists": "Listen", "Book": "Buch", "Find": "Suchen", "Leave": "Abmelden", "To the page": "Zur Seite", "To the lists": "Zu den Listen",
    "3-17, or a name": "3-17 oder ein Name", "Sheet number, or name of a site, unit or stream": "Blattnummer oder Name von Anlage, Einheit oder Strom",
    "at the machine": "an diesem Rechner", "offices": "Büros", "office": "Büro", "reader": "Leser", "People": "Personen", "English": "English", "Deutsch": "Deutsch",
    # lists
    "A pipe list, CSV or XLSX": "Eine Rohrliste, CSV oder XLSX", "Take it": "Übernehmen", "list": "Liste", "site": "Anlage", "taken": "übernommen", "by": "von",
    "None yet. A list has a row for each pipe: stream, what, from, to, reading, accuracy.":
        "Noch keine. Eine Liste hat eine Zeile je Rohr: Strom, Bezeichnung, von, nach, Messwert, Genauigkeit.",
    "Offices": "Büros", "Last kept": "Zuletzt abgelegt", "No sheet is kept yet.": "Noch ist kein Blatt abgelegt.", "older": "ältere", "newest": "neueste",
    "cannot be taken yet": "kann noch nicht übernommen werden", "The list": "Die Liste", "choose a file first": "zuerst eine Datei wählen",
    "Mend what is told below in the spreadsheet and choose the file again.": "Das Folgende in der Tabelle berichtigen und die Datei noch einmal wählen.",
    # the workbench
    "What-if": "Was wäre wenn", "What-if: not kept.": "Was wäre wenn: nicht abgelegt.", "NOT KEPT": "NICHT ABGELEGT", "Cost": "Kosten", "cost": "Kosten", "limit": "Grenze", "blanks": "Lücken",
    "none": "keine", "not counted": "zählt nicht", "take back": "zurücknehmen", "keep it": "ablegen", "take all back": "alles zurücknehmen",
    "reading": "Messwert", "accuracy": "Genauigkeit", "low": "unteres Ende", "high": "oberes Ende", "meter struck out": "Messgerät gestrichen",
    "Sheet": "Blatt", "of office": "des Büros", "kept": "abgelegt", "from": "aus", "checked again by the engine: it passes": "von der Maschine noch einmal geprüft: es besteht",
    "it does not pass the check any more": "es besteht die Prüfung nicht mehr", "List": "Liste", "unit": "Einheit", "no number yet": "noch ohne Nummer", "Print": "Drucken",
    "Try changes": "Änderungen versuchen", "Kept as sheet": "Abgelegt als Blatt", "Kept with changed fields": "Mit geänderten Feldern abgelegt",
    "Keep this sheet": "Dieses Blatt ablegen", "Office": "Büro", "Note": "Notiz", "needed if something was changed": "nötig, wenn etwas geändert wurde",
    "Keep under its next number": "Unter der nächsten Nummer ablegen", "Full size": "Volle Größe", "drawing": "Zeichnung", "The streams": "Die Ströme", "which streams": "welche Ströme",
    "all": "alle", "marked": "markiert", "not known": "nicht bekannt", "changed": "geändert", "stream": "Strom", "what": "Bezeichnung", "balanced": "ausgeglichen",
    "correction": "Korrektur", "test": "Prüfwert", "how known": "woher bekannt", "no meter": "ohne", "Try these readings": "Diese Messwerte versuchen", "was": "war", "no sheet": "kein Blatt",
    "The server does not answer. What you see is the last answer; it is asked again with your next change.":
        "Der Server antwortet nicht. Zu sehen ist die letzte Antwort; mit der nächsten Änderung wird wieder gefragt.",
    "Marked with e: estimates of this tool. ? is not known: any number would be invented.":
        "Mit e bezeichnet: Schätzungen dieses Werkzeugs. ? ist nicht bekannt: jede Zahl wäre erfunden.",
    "This sheet is annulled": "Dieses Blatt ist für ungültig erklärt", "annulled": "ungültig",
    "the engine's own sheet": "das eigene Blatt der Maschine",
    "whole flows of least cost, checked by a proved call; cost and verdict in exact fractions":
        "ganze Flüsse kleinster Kosten, von einem bewiesenen Aufruf geprüft; Kosten und Urteil in genauen Brüchen",
    # the side
    "Why there is no sheet": "Warum es kein Blatt gibt", "What if …": "Was wäre, wenn …", "it read": "es zeigte", "its accuracy were": "seine Genauigkeit wäre",
    "it could carry at least": "es mindestens führen könnte", "and at most": "und höchstens", "its meter were struck out": "sein Messgerät gestrichen wäre", "Try it": "Versuchen",
    "Click a stream, in the drawing or the table: why it has its number or none.": "Einen Strom anklicken, in Zeichnung oder Tabelle: warum er seine Zahl hat oder keine.",
    "Suspects: the cost without each meter": "Verdächtige: die Kosten ohne jedes Messgerät", "meter": "Messgerät", "cost without": "Kosten ohne", "reads": "zeigt",
    "would carry": "würde führen", "visit": "hingehen", "and {n} more, none of which takes more off": "und {n} weitere, von denen keines mehr wegnimmt", "Meters to buy": "Messgeräte zu kaufen",
    "price": "Preis", "no price said": "ohne Preis", "No stream is unknown.": "Kein Strom ist unbekannt.", "Bill for one hour": "Rechnung für eine Stunde", "bill": "Rechnung",
    "The list has no rates.": "Die Liste hat keine Sätze.", "cents": "Cent", "The sheet fails: a bill from it is not to be sent.": "Das Blatt besteht nicht: eine Rechnung daraus ist nicht zu versenden.",
    # the book
    "sheets": "Blätter", "sheet": "Blatt", "Site, unit or stream": "Anlage, Einheit oder Strom", "Verdict": "Urteil", "verdict": "Urteil", "From": "Von", "To": "Bis", "Show": "Zeigen",
    "compare": "vergleichen", "No sheet is found.": "Kein Blatt gefunden.", "Compare the two ticked": "Die zwei angekreuzten vergleichen", "pass": "besteht", "fail": "besteht nicht", "close": "knapp",
    "not judged": "nicht beurteilt", "Two sheets": "Zwei Blätter", "Tick two sheets in the book, then compare them.": "Zwei Blätter im Buch ankreuzen, dann vergleichen.", "read": "gelesen",
    "change": "Änderung", "in σ": "in σ", "not in this sheet": "nicht in diesem Blatt",
    "moved by more than two deviations of the two balanced flows together, an estimate": "um mehr als zwei Abweichungen beider ausgeglichenen Werte zusammen verschoben, eine Schätzung",
    # verdicts and classes
    "pass: the meters agree": "besteht: die Messgeräte stimmen überein", "fail: the meters contradict each other": "besteht nicht: die Messgeräte widersprechen einander",
    "none: no meter is checked by another": "keines: kein Messgerät wird von einem anderen geprüft",
    "close: rounding to whole units may alone have taken it above the limit": "knapp: das Runden auf ganze Einheiten allein kann über die Grenze geführt haben",
    "no sheet: the ranges cannot all be kept": "kein Blatt: nicht alle Bereiche sind einzuhalten",
    "corrected": "korrigiert", "as read, unchecked": "wie gelesen, ungeprüft", "deduced": "abgeleitet",
    # ways in and out, and what goes wrong
    "Who are you?": "Wer sind Sie?", "Name": "Name", "Password": "Passwort", "Come in": "Anmelden", "Name or password is wrong.": "Name oder Passwort ist falsch.",
    "Too many wrong passwords: try again in some minutes.": "Zu viele falsche Passwörter: in einigen Minuten noch einmal versuchen.",
    "Not kept": "Nicht abgelegt", "A changed sheet is kept with a note on why it was changed, and without faulty fields. Nothing was kept; go back and add it.":
        "Ein geändertes Blatt wird mit einer Notiz abgelegt, warum es geändert wurde, und ohne fehlerhafte Felder. Nichts wurde abgelegt; zurückgehen und ergänzen.",
    "No sheet": "Kein Blatt", "No flow keeps within all ranges, so there is nothing to keep.": "Kein Fluss hält alle Bereiche ein, also gibt es nichts abzulegen.",
    "The book did not answer in time": "Das Buch hat nicht rechtzeitig geantwortet",
    "Whether the sheet was kept is not known yet. Press the button: if it was kept, you are shown that sheet; if not, it is kept now. It is never kept twice.":
        "Ob das Blatt abgelegt wurde, ist noch nicht bekannt. Der Knopf zeigt das Blatt, wenn es abgelegt wurde; sonst legt er es jetzt ab. Zweimal abgelegt wird es nie.",
    "Keep it, once": "Einmal ablegen", "The book cannot be reached": "Das Buch ist nicht zu erreichen",
    "The database does not answer. Kept sheets are safe where they are, and nothing is kept meanwhile. This page tries again in ten seconds.":
        "Die Datenbank antwortet nicht. Abgelegte Blätter sind sicher, wo sie sind, und inzwischen wird nichts abgelegt. Diese Seite versucht es in zehn Sekunden wieder.",
    "The book takes no sheets": "Das Buch nimmt keine Blätter", "Not kept again": "Nicht noch einmal abgelegt",
    "Reload the page that you came from and keep it from there.": "Die Seite, von der Sie kommen, neu laden und von dort ablegen.",
    "Not there": "Nicht vorhanden", "There is no such page.": "Es gibt keine solche Seite.", "Not done": "Nicht getan",
    "You may not do that here, or the page is older than your login: reload it.": "Das ist hier nicht erlaubt, oder die Seite ist älter als die Anmeldung: neu laden.",
    "The file is too large for a list.": "Die Datei ist zu groß für eine Liste.",
    # people
    "role": "Rolle", "may come in": "darf hinein", "yes": "ja", "no": "nein", "Change": "Ändern", "Add": "Hinzufügen", "Somebody new": "Jemand Neues", "engineer": "Ingenieur", "admin": "Verwalter",
    # history
    "History runs": "Verläufe", "run": "Verlauf", "No run is laid here yet.": "Noch kein Verlauf vorhanden.",
}


def pick(accepted: str, fixed: str = "") -> Say:
    """The words for a browser: those that the reader has fixed, else the first of the two languages that it accepts."""
    german = fixed == "de" if fixed in ("de", "en") else _first(accepted) == "de"
    return (lambda text: GERMAN.get(text, text)) if german else (lambda text: text)


def _first(accepted: str) -> str:
    """The language of the two that a browser likes best."""
    best, liked = "en", 0.0
    for word in accepted.lower().split(","):
        name, _, rest = word.strip().partition(";")
        quality = rest.strip().removeprefix("q=") if rest else "1"
        try:
            weight = float(quality)
        except ValueError:
            continue
        if name[:2] in ("de", "en") and weight > liked:
            best, liked = name[:2], weight
    return best
