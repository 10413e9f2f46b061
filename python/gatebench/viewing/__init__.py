"""`python -m gatebench view`: a page in a browser that shows the waves of a design, and changes it."""
