"""Recorded positions of aircraft, which tools/tracks-from-csv makes a text of tracks of.

Nothing is proved of these files: they stand outside the proof, which begins at the text of tracks.
"""
