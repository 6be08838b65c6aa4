"""The binding on its library. What is right is told by fcntl(2), fcntl_locking(2) and flock(2)."""

import doctest
import errno
import pickle
import struct
import threading
import unittest

import dehokuna
from dehokuna import TO_THE_END, Blocked, Blocker, Counts, Deadlock, FlockLock, Invalid, LockServer, Mode, NoLocks, NoState, OwnerWait, Policy
from dehokuna import TicketTaken, Waiting

FILE, OTHER = 7, 2**64 - 1
ANN, BOB, CAT = 1, 2**63 + 2, 3


class ServerTest(unittest.TestCase):
    def setUp(self):
        self.server = LockServer()
        self.addCleanup(self.server.close)

    def granted(self):
        return list(self.server.grants())


class Listings(ServerTest):
    def setUp(self):
        self.server = LockServer(Policy.QUEUE)
        self.addCleanup(self.server.close)

    def test_nothing_is_listed_of_nothing(self):
        self.assertEqual([*self.server.files(), *self.server.locks(FILE), *self.server.flocks(FILE), *self.server.waits(FILE)], [])
        self.assertEqual(list(self.server.waits_of()), [])

    def test_files_and_locks_come_in_order(self):
        self.server.set(FILE, BOB, 20, mode=Mode.READ)
        self.server.set(FILE, ANN, 0, 9)
        self.server.set(FILE, ANN, 4, 5, Mode.UNLOCK)
        self.server.flock(OTHER, BOB, Mode.READ)
        self.server.flock(OTHER, ANN, Mode.READ)
        self.assertEqual((list(self.server.files()), list(self.server.files(FILE + 1))), ([FILE, OTHER], [OTHER]))
        ann = [Blocker(ANN, 0, 3, Mode.WRITE), Blocker(ANN, 6, 9, Mode.WRITE)]
        self.assertEqual(list(self.server.locks(FILE)), [*ann, Blocker(BOB, 20, TO_THE_END, Mode.READ)])
        self.assertEqual(list(self.server.flocks(OTHER)), [FlockLock(ANN, Mode.READ), FlockLock(BOB, Mode.READ)])
        self.assertEqual((list(self.server.locks(OTHER)), list(self.server.flocks(FILE))), ([], []))

    def test_a_wait_is_told_with_what_is_in_its_way(self):
        self.server.set(FILE, ANN, 6, 9)
        self.server.flock(OTHER, ANN, Mode.READ)
        self.assertFalse(self.server.wait(70, FILE, BOB, 5, 30))
        self.assertFalse(self.server.wait(OTHER, FILE, CAT, 10, 11, Mode.READ, detect=False))
        self.assertFalse(self.server.flock_wait(7, OTHER, CAT))
        first = Waiting(70, BOB, (5, 30), Mode.WRITE, True, Blocker(ANN, 6, 9, Mode.WRITE))
        self.assertEqual(list(self.server.waits(FILE)), [first, Waiting(OTHER, CAT, (10, 11), Mode.READ, False, 70)])
        self.assertEqual(list(self.server.waits(OTHER)), [Waiting(7, CAT, None, Mode.WRITE, False, FlockLock(ANN, Mode.READ))])
        cat = [OwnerWait(CAT, FILE, OTHER), OwnerWait(CAT, OTHER, 7)]
        self.assertEqual(list(self.server.waits_of()), [*cat, OwnerWait(BOB, FILE, 70)])
        self.assertEqual(list(self.server.waits_of(CAT, CAT)), cat)

    def test_a_list_goes_on_while_the_server_changes(self):
        for file in range(5):
            self.server.set(file, ANN)
        seen = []
        for file in self.server.files():
            seen.append(file)
            self.server.flush(file + 1, ANN)
        self.assertEqual(seen, [0, 2, 4])


class ByteLocks(ServerTest):
    def test_a_lock_blocks_and_is_told(self):
        self.server.set(FILE, ANN, 10, 19, Mode.READ)
        self.server.set(FILE, BOB, 0, TO_THE_END, Mode.READ)
        self.assertIsNone(self.server.get(FILE, CAT, mode=Mode.READ))
        self.assertEqual(self.server.get(FILE, ANN), Blocker(BOB, 0, TO_THE_END, Mode.READ))
        self.assertIsNone(self.server.get(OTHER, CAT))
        with self.assertRaises(Blocked) as refused:
            self.server.set(FILE, CAT, 15, 15)
        self.assertEqual(refused.exception.errno, errno.EAGAIN)
        self.assertIsInstance(refused.exception, BlockingIOError)

    def test_an_unlock_splits(self):
        self.server.set(FILE, ANN, 0, 9)
        self.server.set(FILE, ANN, 4, 5, Mode.UNLOCK)
        blockers = list(self.server.blockers(FILE, BOB))
        self.assertEqual(blockers, [Blocker(ANN, 0, 3, Mode.WRITE), Blocker(ANN, 6, 9, Mode.WRITE)])
        self.assertEqual(list(self.server.blockers(FILE, BOB, 4, 5)), [])
        self.server.set(FILE, BOB, 4, 5)

    def test_blockers_end_at_the_end_of_the_file(self):
        self.server.set(FILE, ANN, 5)
        self.assertEqual(list(self.server.blockers(FILE, BOB, 0, 2**64 - 1)), [Blocker(ANN, 5, TO_THE_END, Mode.WRITE)])

    def test_a_wait_is_granted_and_told_once(self):
        self.server.set(FILE, ANN, 0, 9)
        self.assertFalse(self.server.wait(70, FILE, BOB, 5, 5))
        self.assertFalse(self.server.wait(71, FILE, CAT, 6, 6))
        self.assertEqual(self.granted(), [])
        with self.assertRaises(TicketTaken) as refused:
            self.server.wait(70, FILE, CAT, 0, 0)
        self.assertEqual(refused.exception.errno, errno.EEXIST)
        self.server.flush(FILE, ANN)
        self.assertEqual(self.granted(), [70, 71])
        self.assertIsNone(self.server.next_grant())
        self.assertTrue(self.server.wait(72, FILE, ANN, 0, 0))

    def test_a_cancelled_wait_is_not_granted(self):
        self.server.set(FILE, ANN)
        self.server.wait(70, FILE, BOB)
        self.assertTrue(self.server.cancel(70))
        self.assertFalse(self.server.cancel(70))
        self.server.forget(ANN)
        self.assertEqual(self.granted(), [])

    def test_a_client_that_is_gone_leaves_nothing(self):
        first, last, other = 0x10000, 0x1FFFF, 0x20000
        self.server.set(FILE, first, 0, 9)
        self.server.set(OTHER, last, 0, 9)
        self.server.flock(FILE, first + 1)
        self.assertFalse(self.server.wait(70, FILE, other, 5, 5))
        self.assertFalse(self.server.wait(71, FILE, last, 0, 0))
        self.assertTrue(self.server.has_locks(first, last))
        self.assertFalse(self.server.has_locks(other, 2**64 - 1))
        self.assertEqual(self.server.counts(first, last), Counts(runs=2, flock_locks=1, waits=1))
        self.server.forget_owners(first, last)
        self.assertEqual(self.granted(), [70])
        self.assertEqual(self.server.counts(0, 2**64 - 1), Counts(runs=1, flock_locks=0, waits=0))
        self.assertFalse(self.server.has_locks(first, last))
        self.server.forget_owners(other + 1, other)
        self.assertTrue(self.server.has_locks(other, other))
        with self.assertRaises(OverflowError):
            self.server.forget_owners(0, 2**64)

    def test_a_file_that_is_gone_grants_nothing(self):
        self.server.set(FILE, ANN)
        self.server.flock(FILE, ANN)
        self.assertFalse(self.server.wait(70, FILE, BOB))
        self.server.forget_file(FILE)
        self.assertEqual(self.granted(), [])
        self.assertFalse(self.server.cancel(70))
        self.assertEqual(self.server.counts(0, 2**64 - 1), Counts(0, 0, 0))

    def test_a_cycle_is_a_deadlock(self):
        self.server.set(FILE, ANN, 0, 0)
        self.server.set(FILE, BOB, 1, 1)
        self.assertFalse(self.server.wait(70, FILE, ANN, 1, 1))
        with self.assertRaises(Deadlock) as refused:
            self.server.wait(71, FILE, BOB, 0, 0)
        self.assertEqual(refused.exception.errno, errno.EDEADLK)
        self.assertFalse(self.server.wait(71, FILE, BOB, 0, 0, detect=False))

    def test_the_last_close_takes_what_came_through_it(self):
        self.server.note(FILE, ANN, 40)
        self.server.set(FILE, ANN, 0, 9)
        self.server.note(FILE, BOB, 41)
        self.server.set(FILE, BOB, 10, 19)
        self.server.flock(FILE, CAT)
        self.server.release(FILE, 40, flock_owner=CAT)
        self.assertEqual(list(self.server.blockers(FILE, 9)), [Blocker(BOB, 10, 19, Mode.WRITE)])
        self.server.flock(FILE, ANN)
        self.server.release(FILE, 41)
        self.assertIsNone(self.server.get(FILE, 9))
        with self.assertRaises(Blocked):
            self.server.flock(FILE, BOB)

    def test_the_queue_lets_nobody_past(self):
        with LockServer(Policy.QUEUE) as server:
            server.set(FILE, ANN, 0, 0, Mode.READ)
            self.assertFalse(server.wait(70, FILE, BOB, 0, 0))
            self.assertFalse(server.wait(71, FILE, CAT, 0, 0, Mode.READ))
        self.server.set(FILE, ANN, 0, 0, Mode.READ)
        self.assertFalse(self.server.wait(70, FILE, BOB, 0, 0))
        self.assertTrue(self.server.wait(71, FILE, CAT, 0, 0, Mode.READ))


class Flocks(ServerTest):
    def test_a_conversion_that_is_blocked_loses_the_lock(self):
        self.server.flock(FILE, ANN, Mode.READ)
        self.server.flock(FILE, BOB, Mode.READ)
        with self.assertRaises(Blocked):
            self.server.flock(FILE, ANN)
        self.server.flock(FILE, BOB)
        self.assertFalse(self.server.flock_wait(70, FILE, ANN))
        self.server.flock_release(FILE, BOB)
        self.assertEqual(self.granted(), [70])

    def test_an_atomic_conversion_comes_before_the_waits(self):
        for atomic in (True, False):
            with self.subTest(atomic=atomic), LockServer(atomic=atomic) as server:
                server.flock(FILE, ANN)
                self.assertFalse(server.flock_wait(70, FILE, BOB))
                if atomic:
                    server.flock(FILE, ANN, Mode.READ)
                else:
                    self.assertRaises(Blocked, server.flock, FILE, ANN, Mode.READ)
                self.assertEqual(list(server.grants()), [] if atomic else [70])

    def test_byte_locks_are_apart(self):
        self.server.flock(FILE, ANN)
        self.server.set(FILE, BOB)
        self.server.flock(FILE, ANN, Mode.UNLOCK)
        self.assertTrue(self.server.flock_wait(70, FILE, BOB))


class Words(ServerTest):
    def test_what_is_no_range_or_mode_is_invalid(self):
        self.server.set(FILE, ANN, 10, 20)
        for wrong in (
            lambda: self.server.set(FILE, ANN, 5, 4),
            lambda: self.server.set(FILE, ANN, TO_THE_END + 1, TO_THE_END + 1, Mode.UNLOCK),
            lambda: self.server.set(FILE, ANN, 0, 9, 3),
            lambda: self.server.set(FILE, ANN, 0, 9, -1),
            lambda: self.server.get(FILE, ANN, 1, 0),
            lambda: self.server.get(FILE, ANN, mode=Mode.UNLOCK),
            lambda: self.server.wait(70, FILE, ANN, 1, 0),
            lambda: self.server.flock(FILE, ANN, 3),
        ):
            with self.assertRaises(Invalid) as refused:
                wrong()
            self.assertEqual(refused.exception.errno, errno.EINVAL)
            self.assertIsInstance(refused.exception, ValueError)
        self.assertEqual(list(self.server.blockers(FILE, BOB)), [Blocker(ANN, 10, 20, Mode.WRITE)])

    def test_a_number_that_is_cut_off_elsewhere_is_refused(self):
        for wrong in (-1, 2**64):
            with self.assertRaises(OverflowError):
                self.server.flush(wrong, ANN)
        with self.assertRaises(TypeError):
            self.server.flush("7", ANN)

    def test_an_export_tells_states_apart(self):
        with LockServer() as other:
            self.assertEqual(self.server.export(), struct.pack("<7Q", 1, 0, 0, 0, 0, 0, 0))
            self.server.set(FILE, BOB, 4, 9, Mode.READ)
            self.assertNotEqual(self.server.export(), other.export())
            other.set(FILE, BOB, 7, 9, Mode.READ)
            other.set(FILE, BOB, 4, 6, Mode.READ)
            locked = struct.pack("<15Q", 1, 0, 0, 1, FILE, 1, BOB, 4, 9, 1, 0, 0, 0, 0, 0)
            self.assertEqual(self.server.export(), locked)
            self.assertEqual(other.export(), locked)

    def test_bytes_make_a_server(self):
        self.server.set(FILE, BOB, 4, 9, Mode.WRITE)
        self.assertFalse(self.server.wait(70, FILE, ANN, 4, 4, Mode.READ))
        state = self.server.export()
        with LockServer.from_bytes(state) as other:
            self.assertEqual(other.export(), state)
            other.flush(FILE, BOB)
            self.assertEqual(list(other.grants()), [70])
        self.assertEqual(self.server.export(), state)

    def test_bytes_that_no_server_exports_are_refused(self):
        twice = struct.pack("<19Q", 1, 0, 0, 1, FILE, 2, ANN, 0, 9, 2, BOB, 9, 9, 1, 0, 0, 0, 0, 0)
        for state, flaw, offset in (
            (b"", "the bytes are not of the format", 0),
            (self.server.export() + b"\0", "the bytes are not of the format", 56),
            (twice, "two locks conflict", 80),
        ):
            with self.assertRaises(NoState) as refused:
                LockServer.from_bytes(state)
            self.assertEqual((refused.exception.flaw, refused.exception.offset), (flaw, offset))

    def test_another_policy_is_refused(self):
        with self.assertRaises(ValueError):
            LockServer(9)

    def test_a_worker_may_answer_by_a_refusal(self):
        numbers = {Blocked: errno.EAGAIN, Deadlock: errno.EDEADLK, NoLocks: errno.ENOLCK, Invalid: errno.EINVAL, TicketTaken: errno.EEXIST}
        for kind, number in numbers.items():
            given = kind()
            answer = pickle.loads(pickle.dumps(given))
            self.assertEqual((type(answer), answer.errno, str(answer)), (kind, number, str(given)))
        answer = pickle.loads(pickle.dumps(NoState("a file comes again", 17)))
        self.assertEqual((type(answer), answer.errno, answer.flaw, answer.offset), (NoState, errno.EINVAL, "a file comes again", 17))

    def test_a_closed_server_says_so(self):
        self.server.close()
        self.server.close()
        with self.assertRaises(ValueError):
            self.server.next_grant()


class Threads(ServerTest):
    def test_each_request_is_answered_once(self):
        """Four threads lock one byte in turn; whoever fetches a grant wakes the thread that waits for it."""
        threads, rounds, taken = 4, 500, []
        woken = [threading.Semaphore(0) for _ in range(threads)]

        def wake():
            for ticket in self.server.grants():
                woken[ticket].release()

        def work(number):
            for _ in range(rounds):
                if not self.server.wait(number, FILE, number, 0, 0):
                    wake()
                    woken[number].acquire()
                taken.append(number)
                self.server.flush(FILE, number)
                wake()

        workers = [threading.Thread(target=work, args=(number,)) for number in range(threads)]
        for worker in workers:
            worker.start()
        for worker in workers:
            worker.join(60)
        self.assertEqual(len(taken), threads * rounds)
        self.assertEqual(self.granted(), [])
        self.assertFalse(any(it.acquire(blocking=False) for it in woken))


def load_tests(loader, tests, pattern):
    tests.addTests(doctest.DocTestSuite(dehokuna))
    return tests


if __name__ == "__main__":
    unittest.main()
