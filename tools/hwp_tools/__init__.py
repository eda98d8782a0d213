"""The commands beside hwp that read scripts, reports and traces: hwp-lint, hwp-judge, hwp-explain, hwp-words, hwp-json."""
