"""What tools/runscript, tools/runpicture and tools/runsummary share: run scripts and what the bench prints."""
