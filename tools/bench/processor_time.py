"""The processor time of another process."""
import time

# The kernel's clock of all threads of a process is named by the process (clock_getcpuclockid).
SCHEDULED = 2


def processor_seconds(pid):
    """The seconds that a process had a processor so far, in its own code and in the kernel."""
    return time.clock_gettime(~pid << 3 | SCHEDULED)
