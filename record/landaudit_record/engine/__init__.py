"""Runs landaudit and reads what it answers."""
