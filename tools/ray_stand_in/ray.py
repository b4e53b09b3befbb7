"""A stand-in for Ray with the calls that exported programs make, in one process: it can't show how Ray behaves, but that the calls are right.

A task runs at once, where it is called. Like Ray it dereferences references that are arguments themselves, and none inside of other
values; it hands over copies; and it has no references where `init` wasn't called or `shutdown` was.
"""

import pickle

objects = None


class ObjectRef:
    """Names an object by its number."""

    def __init__(self, number):
        self.number = number


def init(address=None, num_cpus=None):
    global objects
    objects = []


def shutdown():
    global objects
    objects = None


def put(value):
    if isinstance(value, ObjectRef):
        raise TypeError("Calling 'put' on an ray.ObjectRef is not allowed.")
    objects.append(pickle.dumps(value))
    return ObjectRef(len(objects) - 1)


def get(reference, timeout=None):
    if not isinstance(reference, ObjectRef):
        raise ValueError(f"Invalid type of object refs: {type(reference)}")
    return pickle.loads(objects[reference.number])


class RemoteFunction:
    """A function whose calls are tasks."""

    def __init__(self, function, retries=3, count=1):
        self.function = function
        self.retries = retries
        self.count = count

    def options(self, max_retries, num_returns=1):
        return RemoteFunction(self.function, max_retries, num_returns)

    def remote(self, *arguments):
        given = pickle.loads(pickle.dumps(arguments))
        end = self.function(*[get(it) if isinstance(it, ObjectRef) else it for it in given])
        if self.count == 1:
            return put(end)
        if len(end) != self.count:
            raise ValueError(f"The task returned {len(end)} values, and not {self.count}.")
        return [put(it) for it in end]


def remote(function):
    return RemoteFunction(function)
