"""The adapter that puts `pubsubd serve` behind a real XMPP server. README.md beside this package says what each module does."""

VERSION = "1.0"
