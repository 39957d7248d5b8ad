"""All that try_c.py tries of the client of the Python package."""

from try_c.try_c_client import TESTS as WITH_A_BROKER
from try_c.try_c_client_anew import TESTS as ANEW
from try_c.try_c_client_faults import TESTS as OF_FAULTS
from try_c.try_c_client_killed import TESTS as OF_THE_KILLED
from try_c.try_c_client_slow import TESTS as OF_SLOW_PEERS
from try_c.try_c_client_ways import TESTS as OF_WAYS
from try_c.try_c_client_wire import TESTS as OVER_THE_WIRE

TESTS = WITH_A_BROKER + OF_WAYS + OVER_THE_WIRE + OF_FAULTS + OF_SLOW_PEERS + ANEW + OF_THE_KILLED
