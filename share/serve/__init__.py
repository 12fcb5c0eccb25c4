"""The server of the laboratory in a browser: a WSGI application. Each answer is made by the proved program.

`./byzlab serve` and byzlab-serve start it. `gunicorn --chdir share serve:app` and other WSGI servers use `serve.app`, which is made
when it is first asked for; in a release the folder is share/byzlab. These variables say where things are:

BYZLAB          the program; by default that of the release, or the one that `./byzlab prove` built
SURVEYOR        the program of `./byzlab survey`; without it the page cannot search for campaigns that break
BYZLAB_EXAMPLES the folder with the stories and strategies; by default that of the release or repository
BYZLAB_HOSTS    the names by which browsers call the server, separated by commas (lab.school,192.0.2.7:8000); by default those of
                the loopback interface, with port 8000
BYZLAB_WORKERS  how many programs may run at once; by default one for each processor
"""


def __getattr__(name):
    """Makes the application when a WSGI server asks for it."""
    if name != "app":
        raise AttributeError(f"module {__name__} has no attribute {name}")
    from . import settings

    globals()["app"] = settings.laboratory()
    return globals()["app"]
