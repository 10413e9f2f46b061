"""Tests of the built programs as a user runs them: their words, their files, their texts and their statuses."""
