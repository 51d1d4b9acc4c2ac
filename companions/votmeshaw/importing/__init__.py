"""What comes in from other emulators: runs by their format, the settings that they say, cartridges, and how both are made a movie of."""
