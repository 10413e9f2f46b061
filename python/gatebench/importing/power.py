"""The pins of cells that supply power, as they are usually called. An import passes them over."""
import re

POWER = re.compile(r"(?i)v(dd|ss|cc|ee|pwr|gnd|pb|nb)[a-z0-9_]*|gnd[a-z0-9_]*|[av]?v(dd|ss)|tap|sub")
