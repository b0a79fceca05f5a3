"""Unit tests of the tools: no program is needed, and all of them end within ten seconds."""
