"""What the package offers, for type checkers."""

from .audits import *
from .cases import *
from .check import *
from .edits import *
from .expr import *
from .folder import *
from .grammar import *
from .journal import *
from .limits import *
from .moves import *
from .reading import *
from .refusals import *
from .reports import *
from .run import *
from .spelling import *
from .store import *
from .table import *
from .tokens import *
from .trees import *
from .txn import *
from .values import *
