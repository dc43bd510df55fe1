"""Cases of other tables that also hold on a cluster: loads of CSV, arrays of each shape, what is refused, and threads
that share a table."""

import unittest
from unittest import mock

from clusters import wants_cluster
from test_cluster import OnWorkers, begin, end
from test_dates import Dates
from test_errors import Arrays, Raised
from test_files import Loads
from test_lines import Into
from test_shapes import Shapes
from test_sharing import Threads
from test_threads import Sharing
from ways import wants_library

setUpModule, tearDownModule = begin, end


@wants_library
@wants_cluster
class LoadsOnACluster(OnWorkers, Loads, unittest.TestCase):
    """Loads."""


@wants_library
@wants_cluster
class IntoACluster(OnWorkers, Into, unittest.TestCase):
    """Each line."""


@wants_library
@wants_cluster
class SharingOnACluster(OnWorkers, Sharing, unittest.TestCase):
    """Threads."""

    def test_threads_share_a_table(self):
        # few steps, since a call takes some milliseconds
        with mock.patch("test_threads.STEPS", 10):
            super().test_threads_share_a_table()


@wants_library
@wants_cluster
class ThreadsOnACluster(OnWorkers, Threads, unittest.TestCase):
    """Threads that query and change a table at random."""

    STEPS = 15


@wants_library
@wants_cluster
class ShapesOnACluster(OnWorkers, Shapes, unittest.TestCase):
    """Arrays of each shape."""


@wants_library
@wants_cluster
class RaisedOnACluster(OnWorkers, Raised, unittest.TestCase):
    """What is wrong, in words."""


@wants_library
@wants_cluster
class ArraysOnACluster(OnWorkers, Arrays, unittest.TestCase):
    """Arrays that are none of integers or floats."""


@wants_library
@wants_cluster
class DatesOnACluster(OnWorkers, Dates, unittest.TestCase):
    """Dates of each unit."""

    UNITS = ("datetime64[M]", "datetime64[ns]")


if __name__ == "__main__":
    unittest.main()
