"""What proving all programs and a quick run take, as measured on four cores (docs/PERFORMANCE.md)."""

PROVING = "about 20 minutes on four cores of a fast machine, 40 on a slow one"
PROVING_DISK_MB = 6000
# The kit keeps no proof where less disk than this would be left.
KEPT_LEAVES_MB = 5000
QUICK = "about a minute"
QUICK_MEMORY = "2 GB of memory"
QUICK_DISK_MB = 200
