"""Why a run stopped, and what in it is a likely mistake."""
