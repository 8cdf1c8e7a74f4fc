"""Helpers of tests/gateway.py and tests/broker.py."""
