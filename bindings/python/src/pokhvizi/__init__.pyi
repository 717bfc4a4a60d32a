import os
from typing import Optional, Union

import yaml
from yaml.parser import Parser as _Parser

from .cyaml import CBaseLoader as CBaseLoader, CFullLoader as CFullLoader, CLoader as CLoader
from .cyaml import CParser as CParser, CSafeLoader as CSafeLoader, CUnsafeLoader as CUnsafeLoader

__version__: str

class LibraryError(Exception): ...

class Parser(_Parser):
    max_depth: Optional[int]
    max_nodes: Optional[int]
    max_expanded: Optional[int]
    unique_keys: bool

class Loader(Parser, yaml.Loader): ...

class SafeLoader(Parser, yaml.SafeLoader): ...

def use_library(path: Union[str, os.PathLike[str]]) -> None: ...
