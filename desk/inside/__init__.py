"""What the programs of the desk share. Nothing here is proved, and nothing here knows how a gauge works: every number of a gauge comes from the
proved programs `live` and `live_tray`."""
