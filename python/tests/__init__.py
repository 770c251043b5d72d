"""The binding's tests, run by python/test."""
import pathlib

REPOSITORY = pathlib.Path(__file__).resolve().parents[2]
DEMO = REPOSITORY / "demo"
