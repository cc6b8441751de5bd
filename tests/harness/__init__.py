"""What the scripts of tests/, bench/ and tools/ share.

- `repository`: where the built programs and the kit are
- `results`: counts checks, and prints the last line 'N passed, M failed'
- `processes`: a started process, with its memory and processor time; SIGTERM ends a script and what it has started
- `servers`: wfmc, memcached and a relay, each on free ports
- `client`: connections
- `answers`: clients that have asked, and whether they are answered
- `measures`: how a measurement is printed, and how long a client waits
- `preload`: libraries that refuse or count a program's allocations, or fail its waits
"""
