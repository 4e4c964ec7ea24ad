"""The state of carbon dioxide by Span and Wagner (1996), its thermal conductivity by Huber and others (2016), and the scorer of cylinder banks:
the library makhroeng, each function of which is proved, from Python.

    state(T=.., p=..)     the state at a temperature in K and an absolute pressure in Pa
    state(T=.., rho=..)   the state at a temperature in K and a density in kg/m3
    states(T, p)          many of the first kind at once, over arrays
    saturation(T)         where liquid and vapour stand together
    report(sheet)         the report of a sheet's bytes
    version()             the library's version
    Refused               what is raised where the library does not answer, with its number and its words

    >>> s = state(T=253.15, p=2.5e6)
    >>> print(f"{s.phase}, {s.rho:.1f} kg/m3, {s.conductivity:.6f} W/(m K)")
    liquid, 1034.1 kg/m3, 0.133759 W/(m K)
    >>> found = states([293.15, 253.15, 200.0], 2.5e6)
    >>> [f"{x:.1f}" for x in found.rho], found.refused.tolist()
    (['52.9', '1034.1', 'nan'], [0, 0, 4])
    >>> Refused(4).says
    'The temperature is not 216.592 to 523 K (-56.55 to 249.85 C), or asked for saturation not below 304.1282 K'

A blank is never read as a number: None, a masked place, a bool or a text is a TypeError that names the place. Nothing is kept between calls, so any
number of threads may call at once; each call lets go of Python's lock.

What is proved is the library. That this package hands it what it was given, and hands back what it answered, is tested (python/check).
"""
from makhroeng._answers import Phase, Refused, Saturation, State, States
from makhroeng._calls import report, saturation, state, version
from makhroeng._library import VERSION, dotted
from makhroeng._many import states

__all__ = ["Phase", "Refused", "Saturation", "State", "States", "report", "saturation", "state", "states", "version"]
__version__ = dotted(VERSION)
