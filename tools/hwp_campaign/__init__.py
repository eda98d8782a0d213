"""Campaigns: many scripts through the program, many at a time (docs/CAMPAIGN.md)."""
