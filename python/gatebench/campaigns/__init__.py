"""Campaigns: many what-ifs over one design, run by any executor of concurrent.futures.

    from concurrent.futures import ProcessPoolExecutor
    from gatebench import netlist_of
    from gatebench.campaigns import Detects, bench_of, faults_of, run_all

    netlist = netlist_of(text)
    bench = bench_of(text, ["stim a 0 1", "stim b 0 0"], netlist.outputs, horizon=100)
    with ProcessPoolExecutor(4) as executor:
        verdicts = run_all(bench, list(faults_of(netlist)), Detects(), executor)"""
from .faults import faults_of
from .judge import Detects, Differs, Judge, NoPulse, Verdict
from .report import Coverage, by_module, coverage_of, faults_report, sweep_report
from .results import Campaign, Journal, OtherResults, write_csv, write_json
from .run import Bench, bench_of, run, run_all
from .sweeps import each_delay, scaled, spread, stimuli
from .what_if import WhatIf

__all__ = [
    "Bench",
    "Campaign",
    "Coverage",
    "Detects",
    "Differs",
    "Journal",
    "Judge",
    "NoPulse",
    "OtherResults",
    "Verdict",
    "WhatIf",
    "bench_of",
    "by_module",
    "coverage_of",
    "each_delay",
    "faults_of",
    "faults_report",
    "run",
    "run_all",
    "scaled",
    "spread",
    "stimuli",
    "sweep_report",
    "write_csv",
    "write_json",
]
