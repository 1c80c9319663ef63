"""The former name of the package `jolmidda`, for programs that import it from this folder."""

from jolmidda import *
