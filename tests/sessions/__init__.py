"""Tests of sessions, over the built program: lines, and the reply to each."""
