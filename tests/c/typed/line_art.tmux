# Nothing is typed.
