"""The texts of the pages by which people sign in, in English and German."""

TEXTS = {
    "en": {
        "title": "Sign in", "name": "Name", "password": "Password", "go": "Sign in",
        "wrong": "The name or the password is not right.",
        "often": "Too many attempts. Wait a minute, and try again.",
        "away": "The directory does not answer. Try again in a minute.",
        "no-role": "You have no role here. Ask your records manager.",
        "state": "This sign-in is too old, or was not begun here. Begin again.",
        "provider": "The sign-in at your provider was not accepted here. Begin again.",
        "busy": "Too many people sign in just now. Try again in a minute.",
        "origin": "This came from another page. Begin again.",
        "by-provider": "Sign in with the city's account", "out": "You are signed out here.",
        "out-there": "Sign out of the city's account too", "again": "Begin again",
    },
    "de": {
        "title": "Anmelden", "name": "Name", "password": "Passwort", "go": "Anmelden",
        "wrong": "Der Name oder das Passwort stimmt nicht.",
        "often": "Zu viele Versuche. Warten Sie eine Minute, und versuchen Sie es noch einmal.",
        "away": "Das Verzeichnis antwortet nicht. Versuchen Sie es in einer Minute noch einmal.",
        "no-role": "Sie haben hier keine Rolle. Fragen Sie die Leitung der Registratur.",
        "state": "Diese Anmeldung ist zu alt, oder sie wurde nicht hier begonnen. Beginnen Sie neu.",
        "provider": "Die Anmeldung bei Ihrem Anbieter wurde hier nicht angenommen. Beginnen Sie neu.",
        "busy": "Gerade melden sich zu viele an. Versuchen Sie es in einer Minute noch einmal.",
        "origin": "Das kam von einer anderen Seite. Beginnen Sie neu.",
        "by-provider": "Mit dem Konto der Stadt anmelden", "out": "Sie sind hier abgemeldet.",
        "out-there": "Auch vom Konto der Stadt abmelden", "again": "Neu beginnen",
    },
}


def language_of(accepted: str) -> str:
    """Returns the language of a browser: the first of its list that there is, or English."""
    for part in accepted.split(",")[:20]:
        language = part.split(";")[0].strip().lower().partition("-")[0]
        if language in TEXTS:
            return language
    return "en"
