"""Runs of small designs: the waves of their nets."""
