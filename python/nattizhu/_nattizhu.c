/* The functions of nattizhu.h for Python, in CPython's stable ABI.
 *
 * An update by more than ENOUGH bytes releases the GIL, and holds the lock of its object instead. Each other
 * call holds the GIL while it reads or writes a state. It allocates nothing of Python's there, so no Python
 * code runs in between: neither a signal handler nor a finalizer. A thread that waits for an object's lock
 * has released the GIL. */
#define PY_SSIZE_T_CLEAN
/* The first version whose stable ABI has buffers. */
#define Py_LIMITED_API 0x030b0000
#include <Python.h>

#include <stdbool.h>
#include <string.h>

#include "nattizhu.h"

/* More bytes than this are hashed without the GIL, as hashlib does. */
enum { ENOUGH = 2047 };

/* Messages of a list that are handed on at once: so many, or fewer that have so many bytes together. */
enum { MESSAGES_AT_ONCE = 1024, BYTES_AT_ONCE = 64000000 };

/* ---- The library */

/* For x86-64 the module has the library in two builds: for every such processor, and for x86-64-v3, where
 * each name ends in _v3. The calls for many messages, and for keys, are those of the second where this
 * processor can run them; for one message the first is as fast. */
#ifdef __x86_64__
#if !defined(__clang__) && __GNUC__ >= 12
#define HAS_V3 (__builtin_cpu_supports("x86-64-v3") != 0)
#else
#define HAS_V3 false /* such a compiler may not know this level */
#endif
#define LEVEL (HAS_V3 ? "x86-64-v3" : "x86-64")
#define BEST(name) (HAS_V3 ? name##_v3 : name)

extern __typeof__(nattizhu_each) nattizhu_each_v3;
extern __typeof__(nattizhu_list) nattizhu_list_v3;
extern __typeof__(nattizhu_hmac_each) nattizhu_hmac_each_v3;
extern __typeof__(nattizhu_hmac_list) nattizhu_hmac_list_v3;
extern __typeof__(nattizhu_pbkdf2) nattizhu_pbkdf2_v3;
#else
#define LEVEL "aarch64"
#define BEST(name) name
#endif

/* Sets an exception if the library refused what it was given, which it has no reason to. */
static bool taken(bool answer) {
  if (!answer)
    PyErr_SetString(PyExc_SystemError, "nattizhu: the library refused what it was given");
  return answer;
}

/* ---- The variants */

typedef struct {
  nattizhu_variant number;
  Py_ssize_t size;      /* of a digest */
  const char *names[6]; /* the first is that of its hashers; object identifiers are TeleTrusT's */
} Variant;

#define VARIANT(bits, ...)                                                                         \
  {NATTIZHU_RIPEMD##bits, NATTIZHU_RIPEMD##bits##_SIZE,                                            \
   {"ripemd" #bits, "ripemd-" #bits, "rmd" #bits, __VA_ARGS__}}

enum { VARIANTS = 4 };
static const Variant variants[VARIANTS] = {
    VARIANT(128, "1.3.36.3.2.2"), VARIANT(160, "ripemd", "1.3.36.3.2.1"),
    VARIANT(256, "1.3.36.3.2.3"), VARIANT(320, NULL)};

/* The variant with this name, in either case; null and an exception if there is none. As for hashlib, bytes 0
 * and lone surrogates make no string. */
static const Variant *variant_named(PyObject *name) {
  Py_ssize_t length;
  const char *text = PyUnicode_Check(name) ? PyUnicode_AsUTF8AndSize(name, &length) : NULL;
  char lower[16];
  if (text == NULL || strlen(text) != (size_t)length) {
    PyErr_SetString(PyExc_TypeError, "name must be a string");
    return NULL;
  }
  if (length < (Py_ssize_t)sizeof lower) {
    for (Py_ssize_t i = 0; i <= length; i++)
      lower[i] = (char)(text[i] >= 'A' && text[i] <= 'Z' ? text[i] - 'A' + 'a' : text[i]);
    for (int v = 0; v < VARIANTS; v++)
      for (const char *const *known = variants[v].names; *known != NULL; known++)
        if (strcmp(lower, *known) == 0)
          return &variants[v];
  }
  PyErr_Format(PyExc_ValueError, "unsupported hash type %U", name);
  return NULL;
}

/* ---- Arguments */

/* How a function is called: its parameters in order, of which so many may be given by position. The first
 * ones have to be given, so many. The one for the variant may have an alias. */
typedef struct {
  const char *function;
  const char *parameters[6];
  Py_ssize_t positional, required, variant;
  const char *alias;
} Signature;

static Py_ssize_t parameter(const Signature *signature, PyObject *name) {
  for (Py_ssize_t i = 0; signature->parameters[i] != NULL; i++)
    if (PyUnicode_CompareWithASCIIString(name, signature->parameters[i]) == 0)
      return i;
  if (signature->alias != NULL && PyUnicode_CompareWithASCIIString(name, signature->alias) == 0)
    return signature->variant;
  return -1;
}

/* Puts each argument in its place, which was null. */
static bool bind(const Signature *signature, PyObject *const *arguments, Py_ssize_t count,
                 PyObject *names, PyObject **places) {
  Py_ssize_t named = names == NULL ? 0 : PyTuple_Size(names);
  if (count > signature->positional) {
    PyErr_Format(PyExc_TypeError, "%s() takes at most %zd positional arguments (%zd given)",
                 signature->function, signature->positional, count);
    return false;
  }
  for (Py_ssize_t i = 0; i < count; i++)
    places[i] = arguments[i];
  for (Py_ssize_t i = 0; i < named; i++) {
    PyObject *name = PyTuple_GetItem(names, i);
    Py_ssize_t place = parameter(signature, name);
    if (place < 0) {
      PyErr_Format(PyExc_TypeError, "%s() got an unexpected keyword argument '%U'",
                   signature->function, name);
      return false;
    }
    if (places[place] != NULL) {
      PyErr_Format(PyExc_TypeError, "%s() got multiple values for argument '%s'",
                   signature->function, signature->parameters[place]);
      return false;
    }
    places[place] = arguments[count + i];
  }
  for (Py_ssize_t i = 0; i < signature->required; i++)
    if (places[i] == NULL) {
      PyErr_Format(PyExc_TypeError, "%s() missing required argument '%s' (pos %zd)",
                   signature->function, signature->parameters[i], i + 1);
      return false;
    }
  return true;
}

/* The bytes of an argument, which are held until release. A null `what` is for what is hashed. */
static bool hold(PyObject *object, Py_buffer *held, const char *what) {
  if (PyBytes_CheckExact(object)) { /* which the caller holds, and which never change */
    char *bytes;
    if (PyBytes_AsStringAndSize(object, &bytes, &held->len) != 0)
      return false;
    held->buf = bytes;
    held->obj = NULL;
    return true;
  }
  if (PyObject_CheckBuffer(object))
    return PyObject_GetBuffer(object, held, PyBUF_SIMPLE) == 0;
  if (what != NULL) {
    PyObject *type = PyType_GetName(Py_TYPE(object));
    if (type != NULL)
      PyErr_Format(PyExc_TypeError, "%s must be a bytes-like object, not %U", what, type);
    Py_XDECREF(type);
  } else if (PyUnicode_Check(object)) {
    PyErr_SetString(PyExc_TypeError, "Strings must be encoded before hashing");
  } else {
    PyErr_SetString(PyExc_TypeError, "object supporting the buffer API required");
  }
  return false;
}

/* ---- Hashers and HMACs */

typedef struct {
  PyObject_HEAD
  const Variant *variant;
  PyThread_type_lock lock; /* null until a call releases the GIL */
  Py_ssize_t keyed;        /* 1 if it is an HMAC, and else 0 */
  union {
    nattizhu_state hash;
    nattizhu_hmac_state hmac;
  } state;
} Hash;

typedef struct {
  PyTypeObject *hasher, *hmac;
  PyObject *from_state, *hmac_from_state;
} Module;

/* A hasher or an HMAC, to which a state has to be written. */
static Hash *made(PyTypeObject *type, const Variant *variant, Py_ssize_t keyed) {
  Hash *self = PyObject_New(Hash, type);
  if (self != NULL) {
    self->variant = variant;
    self->lock = NULL;
    self->keyed = keyed;
  }
  return self;
}

static void hash_dealloc(PyObject *object) {
  Hash *self = (Hash *)object;
  PyTypeObject *type = Py_TYPE(object);
  if (self->lock != NULL)
    PyThread_free_lock(self->lock);
  nattizhu_wipe(&self->state, sizeof self->state);
  PyObject_Free(object);
  Py_DECREF(type);
}

/* It is saved as so many bytes. */
static Py_ssize_t saved_size(const Hash *self) {
  return self->keyed ? NATTIZHU_HMAC_SAVED_SIZE(self->variant->size)
                     : NATTIZHU_SAVED_SIZE(self->variant->size);
}

/* Waits until no other thread is within a call on the state. */
static void enter(Hash *self) {
  if (self->lock != NULL && !PyThread_acquire_lock(self->lock, NOWAIT_LOCK)) {
    Py_BEGIN_ALLOW_THREADS
    PyThread_acquire_lock(self->lock, WAIT_LOCK);
    Py_END_ALLOW_THREADS
  }
}

static void leave(Hash *self) {
  if (self->lock != NULL)
    PyThread_release_lock(self->lock);
}

/* The state is one that the library made, so that this answers true. */
static bool update_state(Hash *self, const uint8_t *bytes, size_t length) {
  return self->keyed ? nattizhu_hmac_update(&self->state.hmac, bytes, length)
                     : nattizhu_update(&self->state.hash, bytes, length);
}

static bool update_by(Hash *self, PyObject *data) {
  Py_buffer held;
  bool done;
  if (!hold(data, &held, NULL))
    return false;
  if (held.len > ENOUGH && self->lock == NULL)
    self->lock = PyThread_allocate_lock();
  if (held.len > ENOUGH && self->lock != NULL) {
    Py_BEGIN_ALLOW_THREADS
    PyThread_acquire_lock(self->lock, WAIT_LOCK);
    done = update_state(self, held.buf, (size_t)held.len);
    PyThread_release_lock(self->lock);
    Py_END_ALLOW_THREADS
  } else {
    enter(self);
    done = update_state(self, held.buf, (size_t)held.len);
    leave(self);
  }
  PyBuffer_Release(&held);
  return taken(done);
}

static PyObject *hash_update(PyObject *self, PyObject *data) {
  return update_by((Hash *)self, data) ? Py_NewRef(Py_None) : NULL;
}

/* That of an HMAC, whose argument may be given by its name. */
static PyObject *update(PyObject *self, PyObject *const *arguments, Py_ssize_t count,
                        PyObject *names) {
  static const Signature signature = {"update", {"msg", NULL}, 1, 1, -1, NULL};
  PyObject *given[1] = {NULL};
  return bind(&signature, arguments, count, names, given) ? hash_update(self, given[0]) : NULL;
}

static bool digest_of(Hash *self, uint8_t digest[NATTIZHU_MAX_SIZE]) {
  size_t size = (size_t)self->variant->size;
  bool done;
  enter(self);
  done = self->keyed ? nattizhu_hmac_final(&self->state.hmac, digest, size)
                     : nattizhu_final(&self->state.hash, digest, size);
  leave(self);
  return taken(done);
}

static PyObject *hash_digest(PyObject *self, PyObject *Py_UNUSED(none)) {
  uint8_t digest[NATTIZHU_MAX_SIZE];
  if (!digest_of((Hash *)self, digest))
    return NULL;
  return PyBytes_FromStringAndSize((char *)digest, ((Hash *)self)->variant->size);
}

static PyObject *hash_hexdigest(PyObject *self, PyObject *Py_UNUSED(none)) {
  static const char digits[] = "0123456789abcdef";
  uint8_t digest[NATTIZHU_MAX_SIZE];
  char text[2 * NATTIZHU_MAX_SIZE];
  Py_ssize_t size = ((Hash *)self)->variant->size;
  if (!digest_of((Hash *)self, digest))
    return NULL;
  for (Py_ssize_t i = 0; i < size; i++) {
    text[2 * i] = digits[digest[i] >> 4];
    text[2 * i + 1] = digits[digest[i] & 15];
  }
  return PyUnicode_FromStringAndSize(text, 2 * size);
}

static PyObject *hash_copy(PyObject *object, PyObject *Py_UNUSED(none)) {
  Hash *self = (Hash *)object;
  Hash *copy = made(Py_TYPE(object), self->variant, self->keyed);
  if (copy != NULL) {
    enter(self);
    copy->state = self->state;
    leave(self);
  }
  return (PyObject *)copy;
}

static PyObject *hash_state(PyObject *object, PyObject *Py_UNUSED(none)) {
  Hash *self = (Hash *)object;
  uint8_t saved[NATTIZHU_HMAC_SAVED_SIZE(NATTIZHU_MAX_SIZE)];
  size_t size = (size_t)saved_size(self);
  PyObject *bytes;
  bool done;
  enter(self);
  done = self->keyed ? nattizhu_hmac_save(&self->state.hmac, saved, size)
                     : nattizhu_save(&self->state.hash, saved, size);
  leave(self);
  bytes = taken(done) ? PyBytes_FromStringAndSize((char *)saved, (Py_ssize_t)size) : NULL;
  nattizhu_wipe(saved, sizeof saved);
  return bytes;
}

static PyObject *hash_reduce(PyObject *object, PyObject *Py_UNUSED(none)) {
  Hash *self = (Hash *)object;
  Module *module = PyType_GetModuleState(Py_TYPE(object));
  PyObject *state = module == NULL ? NULL : hash_state(object, NULL);
  if (state == NULL)
    return NULL;
  return Py_BuildValue("O(sN)", self->keyed ? module->hmac_from_state : module->from_state,
                       self->variant->names[0], state);
}

static PyObject *hmac_verify_tag(PyObject *object, PyObject *tag) {
  Hash *self = (Hash *)object;
  Py_buffer held;
  bool right;
  if (!hold(tag, &held, "tag"))
    return NULL;
  enter(self);
  right = nattizhu_hmac_verify(&self->state.hmac, held.buf, (size_t)held.len);
  leave(self);
  PyBuffer_Release(&held);
  return PyBool_FromLong(right);
}

static PyObject *hash_name(PyObject *self, void *Py_UNUSED(none)) {
  return PyUnicode_FromFormat(((Hash *)self)->keyed ? "hmac-%s" : "%s",
                              ((Hash *)self)->variant->names[0]);
}

static PyObject *hash_digest_size(PyObject *self, void *Py_UNUSED(none)) {
  return PyLong_FromSsize_t(((Hash *)self)->variant->size);
}

static PyObject *hash_block_size(PyObject *Py_UNUSED(self), void *Py_UNUSED(none)) {
  return PyLong_FromLong(NATTIZHU_BLOCK_SIZE);
}

static PyObject *hash_repr(PyObject *self) {
  return PyUnicode_FromFormat(((Hash *)self)->keyed ? "<hmac-%s nattizhu.Hmac object at %p>"
                                                    : "<%s nattizhu.Hasher object @ %p>",
                              ((Hash *)self)->variant->names[0], (void *)self);
}

#define FUNCTION(name, doc)                                                                        \
  {#name, (PyCFunction)(void (*)(void))name, METH_FASTCALL | METH_KEYWORDS, PyDoc_STR(doc)}

#define METHODS                                                                                    \
  {"digest", hash_digest, METH_NOARGS, PyDoc_STR("The digest, or tag, of the bytes so far.")},     \
      {"hexdigest", hash_hexdigest, METH_NOARGS,                                                   \
       PyDoc_STR("The same in lower case hexadecimal.")},                                          \
      {"copy", hash_copy, METH_NOARGS, PyDoc_STR("Another one, of the same bytes so far.")},       \
      {"state", hash_state, METH_NOARGS,                                                           \
       PyDoc_STR("The saved bytes, from which another process may go on.")},                       \
      {"__reduce__", hash_reduce, METH_NOARGS, NULL}

static PyMethodDef hasher_methods[] = {
    METHODS,
    {"update", hash_update, METH_O, PyDoc_STR("Appends the bytes of data.")},
    {NULL, NULL, 0, NULL}};
static PyMethodDef hmac_methods[] = {
    METHODS,
    FUNCTION(update, "update($self, /, msg)\n--\n\nAppends the bytes of msg."),
    {"verify", hmac_verify_tag, METH_O,
     PyDoc_STR("Whether these bytes are the tag, all of them. All bytes of a tag of the right length\n"
               "are compared, whatever they are.")},
    {NULL, NULL, 0, NULL}};

static PyGetSetDef attributes[] = {
    {"name", hash_name, NULL, PyDoc_STR("The name, as hashlib and hmac give it."), NULL},
    {"digest_size", hash_digest_size, NULL, PyDoc_STR("Bytes of the digest, or of the tag."), NULL},
    {"block_size", hash_block_size, NULL, PyDoc_STR("Bytes of a block."), NULL},
    {NULL, NULL, NULL, NULL, NULL}};

static PyType_Slot hasher_slots[] = {
    {Py_tp_doc, "A hasher, as hashlib has them. new() makes one."},
    {Py_tp_dealloc, hash_dealloc},
    {Py_tp_repr, hash_repr},
    {Py_tp_methods, hasher_methods},
    {Py_tp_getset, attributes},
    {0, NULL}};
static PyType_Slot hmac_slots[] = {
    {Py_tp_doc, "An HMAC. hmac_new() makes one. Its saved bytes, and so its pickle, are as secret as\n"
                "the key."},
    {Py_tp_dealloc, hash_dealloc},
    {Py_tp_repr, hash_repr},
    {Py_tp_methods, hmac_methods},
    {Py_tp_getset, attributes},
    {0, NULL}};

enum { FLAGS = Py_TPFLAGS_DEFAULT | Py_TPFLAGS_DISALLOW_INSTANTIATION | Py_TPFLAGS_IMMUTABLETYPE };
static PyType_Spec hasher_spec = {"nattizhu.Hasher", sizeof(Hash), 0, FLAGS, hasher_slots};
static PyType_Spec hmac_spec = {"nattizhu.Hmac", sizeof(Hash), 0, FLAGS, hmac_slots};

/* ---- Functions that make them */

static PyObject *new_hasher(PyObject *module, const Variant *variant, PyObject *data) {
  Hash *self = made(((Module *)PyModule_GetState(module))->hasher, variant, 0);
  if (self != NULL && (!taken(nattizhu_init(variant->number, &self->state.hash)) ||
                       (data != NULL && !update_by(self, data))))
    Py_CLEAR(self);
  return (PyObject *)self;
}

static PyObject *new(PyObject *module, PyObject *const *arguments, Py_ssize_t count,
                     PyObject *names) {
  static const Signature signature = {"new", {"name", "data", "usedforsecurity", NULL}, 2, 1, 0,
                                      NULL};
  PyObject *given[3] = {NULL};
  const Variant *variant;
  if (!bind(&signature, arguments, count, names, given))
    return NULL;
  variant = variant_named(given[0]);
  return variant == NULL ? NULL : new_hasher(module, variant, given[1]);
}

#define CONSTRUCTOR(bits, v)                                                                       \
  static PyObject *ripemd##bits(PyObject *module, PyObject *const *arguments, Py_ssize_t count,    \
                                PyObject *names) {                                                 \
    static const Signature signature = {                                                           \
        "ripemd" #bits, {"data", "usedforsecurity", NULL}, 1, 0, -1, NULL};                        \
    PyObject *given[2] = {NULL};                                                                   \
    if (!bind(&signature, arguments, count, names, given))                                         \
      return NULL;                                                                                 \
    return new_hasher(module, &variants[v], given[0]);                                             \
  }

CONSTRUCTOR(128, 0)
CONSTRUCTOR(160, 1)
CONSTRUCTOR(256, 2)
CONSTRUCTOR(320, 3)

typedef PyObject *(*Fast)(PyObject *, PyObject *const *, Py_ssize_t, PyObject *);
static const Fast constructors[VARIANTS] = {ripemd128, ripemd160, ripemd256, ripemd320};

/* The variant of a name, or of one of these constructors, as a parameter has it. */
static const Variant *variant_of(PyObject *digestmod, const char *what) {
  if (Py_IS_TYPE(digestmod, &PyCFunction_Type)) {
    PyCFunction function = PyCFunction_GetFunction(digestmod);
    for (int v = 0; v < VARIANTS; v++)
      if (function == (PyCFunction)(void (*)(void))constructors[v])
        return &variants[v];
  }
  if (PyUnicode_Check(digestmod))
    return variant_named(digestmod);
  PyErr_Format(PyExc_TypeError,
               "%s must be a string such as 'ripemd160' or a constructor such as nattizhu.ripemd160, "
               "not %R", what, digestmod);
  return NULL;
}

/* Puts the arguments in their places, and returns the variant; null and an exception if there is none. */
static const Variant *bind_variant(const Signature *signature, PyObject *const *arguments,
                                   Py_ssize_t count, PyObject *names, PyObject **places) {
  return bind(signature, arguments, count, names, places)
             ? variant_of(places[signature->variant], signature->parameters[signature->variant])
             : NULL;
}

static PyObject *hmac_new(PyObject *module, PyObject *const *arguments, Py_ssize_t count,
                          PyObject *names) {
  static const Signature signature = {"hmac_new", {"key", "msg", "digestmod", NULL}, 3, 1, 2,
                                      "name"};
  PyObject *given[3] = {NULL};
  const Variant *variant;
  Py_buffer key;
  Hash *self;
  int is_named;
  if (!bind(&signature, arguments, count, names, given))
    return NULL;
  /* As for the standard hmac, what is false is no digestmod. */
  is_named = given[2] == NULL ? 0 : PyObject_IsTrue(given[2]);
  if (is_named == 0)
    PyErr_SetString(PyExc_TypeError, "Missing required parameter 'digestmod'.");
  variant = is_named == 1 ? variant_of(given[2], signature.parameters[2]) : NULL;
  if (variant == NULL || !hold(given[0], &key, "key"))
    return NULL;
  self = made(((Module *)PyModule_GetState(module))->hmac, variant, 1);
  if (self != NULL &&
      !taken(nattizhu_hmac_init(variant->number, &self->state.hmac, key.buf, (size_t)key.len)))
    Py_CLEAR(self);
  PyBuffer_Release(&key);
  if (self != NULL && given[1] != NULL && given[1] != Py_None && !update_by(self, given[1]))
    Py_CLEAR(self);
  return (PyObject *)self;
}

static PyObject *loaded(PyObject *module, Py_ssize_t keyed, const Variant *variant,
                        PyObject *bytes) {
  const Module *types = PyModule_GetState(module);
  const char *kind = keyed ? "Hmac" : "Hasher";
  Py_buffer held;
  Hash *self;
  if (!hold(bytes, &held, "state"))
    return NULL;
  self = made(keyed ? types->hmac : types->hasher, variant, keyed);
  if (self != NULL &&
      !(keyed ? nattizhu_hmac_load(variant->number, &self->state.hmac, held.buf, (size_t)held.len)
              : nattizhu_load(variant->number, &self->state.hash, held.buf, (size_t)held.len))) {
    if (held.len != saved_size(self))
      PyErr_Format(PyExc_ValueError, "the state of a %s of %s has %zd bytes, not %zd", kind,
                   variant->names[0], saved_size(self), held.len);
    else
      PyErr_Format(PyExc_ValueError, "no %s of %s is saved as these bytes", kind,
                   variant->names[0]);
    Py_CLEAR(self);
  }
  PyBuffer_Release(&held);
  return (PyObject *)self;
}

static PyObject *from_state(PyObject *module, PyObject *const *arguments, Py_ssize_t count,
                            PyObject *names) {
  static const Signature signature = {"from_state", {"name", "state", NULL}, 2, 2, 0, NULL};
  PyObject *given[2] = {NULL};
  const Variant *variant = bind_variant(&signature, arguments, count, names, given);
  return variant == NULL ? NULL : loaded(module, 0, variant, given[1]);
}

static PyObject *hmac_from_state(PyObject *module, PyObject *const *arguments, Py_ssize_t count,
                                 PyObject *names) {
  static const Signature signature = {"hmac_from_state", {"name", "state", NULL}, 2, 2, 0, NULL};
  PyObject *given[2] = {NULL};
  const Variant *variant = bind_variant(&signature, arguments, count, names, given);
  return variant == NULL ? NULL : loaded(module, 1, variant, given[1]);
}

/* ---- Tags and keys by one call */

static PyObject *hmac_digest(PyObject *Py_UNUSED(module), PyObject *const *arguments,
                             Py_ssize_t count, PyObject *names) {
  static const Signature signature = {"hmac_digest", {"key", "msg", "digest", NULL}, 3, 3, 2,
                                      "name"};
  PyObject *given[3] = {NULL}, *tag = NULL;
  const Variant *variant = bind_variant(&signature, arguments, count, names, given);
  Py_buffer key = {0}, text = {0};
  if (variant != NULL && hold(given[0], &key, "key") && hold(given[1], &text, NULL)) {
    uint8_t bytes[NATTIZHU_MAX_SIZE];
    PyThreadState *left = text.len > ENOUGH ? PyEval_SaveThread() : NULL;
    bool done = nattizhu_hmac(variant->number, key.buf, (size_t)key.len, text.buf, (size_t)text.len,
                              bytes, (size_t)variant->size);
    if (left != NULL)
      PyEval_RestoreThread(left);
    if (taken(done))
      tag = PyBytes_FromStringAndSize((char *)bytes, variant->size);
  }
  PyBuffer_Release(&text);
  PyBuffer_Release(&key);
  return tag;
}

static PyObject *hmac_verify(PyObject *Py_UNUSED(module), PyObject *const *arguments,
                             Py_ssize_t count, PyObject *names) {
  static const Signature signature = {"hmac_verify", {"key", "msg", "digest", "tag", NULL}, 4, 4, 2,
                                      "name"};
  PyObject *given[4] = {NULL}, *answer = NULL;
  const Variant *variant = bind_variant(&signature, arguments, count, names, given);
  Py_buffer key = {0}, text = {0}, tag = {0};
  if (variant != NULL && hold(given[0], &key, "key") && hold(given[1], &text, NULL) &&
      hold(given[3], &tag, "tag")) {
    PyThreadState *left = text.len > ENOUGH ? PyEval_SaveThread() : NULL;
    bool right = nattizhu_hmac_verify_text(variant->number, key.buf, (size_t)key.len, text.buf,
                                           (size_t)text.len, tag.buf, (size_t)tag.len);
    if (left != NULL)
      PyEval_RestoreThread(left);
    answer = PyBool_FromLong(right);
  }
  PyBuffer_Release(&tag);
  PyBuffer_Release(&text);
  PyBuffer_Release(&key);
  return answer;
}

/* A list of the outputs, which lie one after another. */
static bool append(PyObject *list, const uint8_t *outputs, Py_ssize_t count, Py_ssize_t size) {
  for (Py_ssize_t i = 0; i < count; i++) {
    PyObject *output = PyBytes_FromStringAndSize((const char *)outputs + i * size, size);
    int status = output == NULL ? -1 : PyList_Append(list, output);
    Py_XDECREF(output);
    if (status != 0)
      return false;
  }
  return true;
}

/* The digests of records of this size, or their tags if there is a key. */
static PyObject *each_held(const Variant *variant, const Py_buffer *key, const Py_buffer *records,
                           Py_ssize_t size) {
  PyObject *list = NULL;
  uint8_t *outputs = NULL;
  Py_ssize_t count = records->len / size;
  size_t length = (size_t)count * (size_t)variant->size;
  PyThreadState *left;
  bool done;
  if (records->len % size != 0)
    return PyErr_Format(PyExc_ValueError, "%zd bytes are no whole number of records of %zd bytes",
                        records->len, size);
  if (count <= PY_SSIZE_T_MAX / variant->size)
    outputs = PyMem_Malloc(length);
  if (outputs == NULL)
    return PyErr_NoMemory();
  left = records->len > ENOUGH ? PyEval_SaveThread() : NULL;
  done = key == NULL
             ? BEST(nattizhu_each)(variant->number, records->buf, (size_t)records->len,
                                   (size_t)size, outputs, length)
             : BEST(nattizhu_hmac_each)(variant->number, key->buf, (size_t)key->len, records->buf,
                                        (size_t)records->len, (size_t)size, outputs, length);
  if (left != NULL)
    PyEval_RestoreThread(left);
  if (taken(done))
    list = PyList_New(0);
  if (list != NULL && !append(list, outputs, count, variant->size))
    Py_CLEAR(list);
  PyMem_Free(outputs);
  return list;
}

static PyObject *each_of(const Variant *variant, PyObject *key, PyObject *records, PyObject *wanted) {
  Py_buffer secret = {0}, held = {0};
  PyObject *list = NULL;
  /* A greater number is as the greatest one here. */
  Py_ssize_t size = PyNumber_AsSsize_t(wanted, NULL);
  if (size < 1) {
    if (!PyErr_Occurred())
      PyErr_SetString(PyExc_ValueError, "the size of a record must be at least 1");
    return NULL;
  }
  if ((key == NULL || hold(key, &secret, "key")) && hold(records, &held, NULL))
    list = each_held(variant, key == NULL ? NULL : &secret, &held, size);
  PyBuffer_Release(&held);
  PyBuffer_Release(&secret);
  return list;
}

/* A bytes object with the bytes of a message: itself, or a copy, since the iterator may write to its
 * other objects before they are hashed. */
static PyObject *message_of(PyObject *object) {
  PyObject *copy;
  Py_buffer held;
  if (PyBytes_CheckExact(object))
    return Py_NewRef(object);
  if (!hold(object, &held, NULL))
    return NULL;
  copy = PyBytes_FromStringAndSize(held.buf, held.len);
  PyBuffer_Release(&held);
  return copy;
}

typedef struct {
  PyObject *objects[MESSAGES_AT_ONCE];
  nattizhu_message messages[MESSAGES_AT_ONCE];
  uint8_t outputs[MESSAGES_AT_ONCE * NATTIZHU_MAX_SIZE];
  size_t total; /* of the bytes of the messages */
  bool last;
} Group;

/* The next messages of an iterator, a group at most. Returns how many, or -1 and an exception. */
static Py_ssize_t next_group(Group *group, PyObject *iterator) {
  Py_ssize_t count = 0;
  group->total = 0;
  group->last = false;
  while (count < MESSAGES_AT_ONCE && group->total < BYTES_AT_ONCE) {
    Py_ssize_t length;
    char *bytes;
    PyObject *object = PyIter_Next(iterator);
    PyObject *message = object == NULL ? NULL : message_of(object);
    Py_XDECREF(object);
    if (message == NULL || PyBytes_AsStringAndSize(message, &bytes, &length) != 0) {
      Py_XDECREF(message);
      group->last = true;
      if (!PyErr_Occurred())
        return count;
      while (count > 0)
        Py_DECREF(group->objects[--count]);
      return -1;
    }
    group->objects[count] = message;
    group->messages[count].bytes = (const uint8_t *)bytes;
    group->messages[count].length = (size_t)length;
    group->total += (size_t)length;
    count++;
  }
  return count;
}

/* The digests of messages, or their tags if there is a key. */
static PyObject *list_of(const Variant *variant, PyObject *key, PyObject *messages) {
  Py_buffer secret = {0};
  PyObject *list = NULL, *iterator;
  Group *group = NULL;
  if (PyBytes_Check(messages) || PyByteArray_Check(messages) || PyUnicode_Check(messages)) {
    PyErr_SetString(PyExc_TypeError,
                    "messages must be an iterable of bytes-like objects, as [b'abc', b'']");
    return NULL;
  }
  iterator = PyObject_GetIter(messages);
  if (iterator == NULL)
    return NULL;
  if (key == NULL || hold(key, &secret, "key")) {
    group = PyMem_Malloc(sizeof *group);
    list = group == NULL ? PyErr_NoMemory() : PyList_New(0);
  }
  while (list != NULL) {
    Py_ssize_t count = next_group(group, iterator);
    if (count > 0) {
      size_t length = (size_t)(count * variant->size);
      PyThreadState *left = group->total > ENOUGH ? PyEval_SaveThread() : NULL;
      bool done = key == NULL ? BEST(nattizhu_list)(variant->number, group->messages, (size_t)count,
                                                    group->outputs, length)
                              : BEST(nattizhu_hmac_list)(variant->number, secret.buf,
                                                         (size_t)secret.len, group->messages,
                                                         (size_t)count, group->outputs, length);
      if (left != NULL)
        PyEval_RestoreThread(left);
      if (!taken(done) || !append(list, group->outputs, count, variant->size))
        Py_CLEAR(list);
      for (Py_ssize_t i = 0; i < count; i++)
        Py_DECREF(group->objects[i]);
    } else if (count < 0) {
      Py_CLEAR(list);
    }
    if (group->last)
      break;
  }
  PyMem_Free(group);
  PyBuffer_Release(&secret);
  Py_DECREF(iterator);
  return list;
}

static PyObject *digest_each(PyObject *Py_UNUSED(module), PyObject *const *arguments,
                             Py_ssize_t count, PyObject *names) {
  static const Signature signature = {"digest_each", {"name", "records", "size", NULL}, 3, 3, 0,
                                      NULL};
  PyObject *given[3] = {NULL};
  const Variant *variant = bind_variant(&signature, arguments, count, names, given);
  return variant == NULL ? NULL : each_of(variant, NULL, given[1], given[2]);
}

static PyObject *hmac_digest_each(PyObject *Py_UNUSED(module), PyObject *const *arguments,
                                  Py_ssize_t count, PyObject *names) {
  static const Signature signature = {
      "hmac_digest_each", {"key", "records", "size", "digest", NULL}, 4, 4, 3, "name"};
  PyObject *given[4] = {NULL};
  const Variant *variant = bind_variant(&signature, arguments, count, names, given);
  return variant == NULL ? NULL : each_of(variant, given[0], given[1], given[2]);
}

static PyObject *digest_list(PyObject *Py_UNUSED(module), PyObject *const *arguments,
                             Py_ssize_t count, PyObject *names) {
  static const Signature signature = {"digest_list", {"name", "messages", NULL}, 2, 2, 0, NULL};
  PyObject *given[2] = {NULL};
  const Variant *variant = bind_variant(&signature, arguments, count, names, given);
  return variant == NULL ? NULL : list_of(variant, NULL, given[1]);
}

static PyObject *hmac_digest_list(PyObject *Py_UNUSED(module), PyObject *const *arguments,
                                  Py_ssize_t count, PyObject *names) {
  static const Signature signature = {
      "hmac_digest_list", {"key", "messages", "digest", NULL}, 3, 3, 2, "name"};
  PyObject *given[3] = {NULL};
  const Variant *variant = bind_variant(&signature, arguments, count, names, given);
  return variant == NULL ? NULL : list_of(variant, given[0], given[1]);
}

/* A number in the range that hashlib takes it from, or -1 and an exception. */
static long long positive(PyObject *object, const char *what) {
  int beyond;
  long long number = PyLong_AsLongLongAndOverflow(object, &beyond);
  if (number == -1 && beyond == 0 && PyErr_Occurred())
    return -1;
  if (beyond < 0 || (beyond == 0 && number < 1))
    PyErr_Format(PyExc_ValueError, "%s must be greater than 0.", what);
  else if (beyond > 0 || number > INT32_MAX)
    PyErr_Format(PyExc_OverflowError, "%s is too great.", what);
  else
    return number;
  return -1;
}

static PyObject *pbkdf2_hmac(PyObject *Py_UNUSED(module), PyObject *const *arguments,
                             Py_ssize_t count, PyObject *names) {
  static const Signature signature = {
      "pbkdf2_hmac", {"hash_name", "password", "salt", "iterations", "dklen", NULL}, 5, 4, 0, NULL};
  PyObject *given[5] = {NULL}, *key = NULL;
  const Variant *variant = bind_variant(&signature, arguments, count, names, given);
  Py_buffer password = {0}, salt = {0};
  long long rounds, length;
  if (variant == NULL)
    return NULL;
  rounds = positive(given[3], "iteration value");
  if (rounds < 0)
    return NULL;
  length = given[4] == NULL || given[4] == Py_None ? variant->size : positive(given[4], "key length");
  if (length < 0)
    return NULL;
  if (hold(given[1], &password, "password") && hold(given[2], &salt, "salt"))
    key = PyBytes_FromStringAndSize(NULL, (Py_ssize_t)length);
  if (key != NULL) {
    uint8_t *place = (uint8_t *)PyBytes_AsString(key);
    bool done;
    Py_BEGIN_ALLOW_THREADS
    done = BEST(nattizhu_pbkdf2)(variant->number, password.buf, (size_t)password.len, salt.buf,
                                 (size_t)salt.len, (uint32_t)rounds, place, (size_t)length);
    Py_END_ALLOW_THREADS
    if (!taken(done))
      Py_CLEAR(key);
  }
  PyBuffer_Release(&salt);
  PyBuffer_Release(&password);
  return key;
}

/* ---- The module */

#define MAKER(bits)                                                                                \
  FUNCTION(ripemd##bits, "ripemd" #bits "($module, /, data=b'', *, usedforsecurity=True)\n--\n\n"  \
                         "A hasher of RIPEMD-" #bits ", which has taken data in.")

static PyMethodDef functions[] = {
    FUNCTION(new, "new($module, /, name, data=b'', *, usedforsecurity=True)\n--\n\n"
                  "A hasher of the variant with this name, which has taken data in."),
    MAKER(128),
    MAKER(160),
    MAKER(256),
    MAKER(320),
    FUNCTION(from_state, "from_state($module, /, name, state)\n--\n\n"
                         "The hasher that is saved as these bytes, as its state() gave them.\n\n"
                         "It raises ValueError if no hasher of this variant is. States are not\n"
                         "authenticated: only their layout is checked."),
    FUNCTION(digest_each, "digest_each($module, /, name, records, size)\n--\n\n"
                          "The list of the digests of the records, each of size bytes, which lie\n"
                          "one after another in records.\n\n"
                          "It raises ValueError if size is not at least 1, or the bytes are not a\n"
                          "whole number of records."),
    FUNCTION(digest_list, "digest_list($module, /, name, messages)\n--\n\n"
                          "The list of the digests of the messages, of any lengths, which an\n"
                          "iterable gives. They are hashed eight at once."),
    FUNCTION(hmac_new, "hmac_new($module, /, key, msg=None, digestmod='')\n--\n\n"
                       "The HMAC of msg under the key, which may have any length. msg may be None,\n"
                       "for nothing yet. digestmod is the name of a variant, or its constructor."),
    FUNCTION(hmac_digest, "hmac_digest($module, /, key, msg, digest)\n--\n\n"
                          "The tag of msg under the key: its bytes."),
    FUNCTION(hmac_verify, "hmac_verify($module, /, key, msg, digest, tag)\n--\n\n"
                          "Whether these bytes are the tag of msg under the key, all of them. All\n"
                          "bytes of a tag of the right length are compared, whatever they are."),
    FUNCTION(hmac_digest_each, "hmac_digest_each($module, /, key, records, size, digest)\n--\n\n"
                               "The list of the tags under one key of the records, each of size\n"
                               "bytes, which lie one after another in records. It raises ValueError\n"
                               "as digest_each does."),
    FUNCTION(hmac_digest_list, "hmac_digest_list($module, /, key, messages, digest)\n--\n\n"
                               "The list of the tags under one key of the messages, of any lengths,\n"
                               "which an iterable gives."),
    FUNCTION(hmac_from_state, "hmac_from_state($module, /, name, state)\n--\n\n"
                              "The HMAC that is saved as these bytes, as its state() gave them. It\n"
                              "raises ValueError if none of this variant is."),
    FUNCTION(pbkdf2_hmac,
             "pbkdf2_hmac($module, /, hash_name, password, salt, iterations, dklen=None)\n--\n\n"
             "The key of dklen bytes that PBKDF2 (RFC 8018) derives from the password and\n"
             "the salt, as hashlib.pbkdf2_hmac has it; None is for as many bytes as a digest\n"
             "has."),
    {NULL, NULL, 0, NULL}};

/* A function of the module, which pickles name as one of the package. */
static PyObject *of_package(PyObject *module, const char *name) {
  PyObject *function = PyObject_GetAttrString(module, name);
  PyObject *package = PyUnicode_FromString("nattizhu");
  if (function == NULL || package == NULL ||
      PyObject_SetAttrString(function, "__module__", package) != 0)
    Py_CLEAR(function);
  Py_XDECREF(package);
  return function;
}

static int module_exec(PyObject *module) {
  Module *state = PyModule_GetState(module);
  state->hasher = (PyTypeObject *)PyType_FromModuleAndSpec(module, &hasher_spec, NULL);
  state->hmac = (PyTypeObject *)PyType_FromModuleAndSpec(module, &hmac_spec, NULL);
  state->from_state = of_package(module, "from_state");
  state->hmac_from_state = of_package(module, "hmac_from_state");
  if (state->hasher == NULL || state->hmac == NULL || state->from_state == NULL ||
      state->hmac_from_state == NULL || PyModule_AddType(module, state->hasher) != 0 ||
      PyModule_AddType(module, state->hmac) != 0)
    return -1;
  if (PyModule_AddStringConstant(module, "_level", LEVEL) != 0)
    return -1;
  return PyModule_AddStringConstant(module, "__version__", nattizhu_version());
}

static int module_traverse(PyObject *module, visitproc visit, void *arg) {
  Module *state = PyModule_GetState(module);
  Py_VISIT(state->hasher);
  Py_VISIT(state->hmac);
  Py_VISIT(state->from_state);
  Py_VISIT(state->hmac_from_state);
  return 0;
}

static int module_clear(PyObject *module) {
  Module *state = PyModule_GetState(module);
  Py_CLEAR(state->hasher);
  Py_CLEAR(state->hmac);
  Py_CLEAR(state->from_state);
  Py_CLEAR(state->hmac_from_state);
  return 0;
}

static void module_free(void *module) { module_clear(module); }

/* What the ABI has from 3.12 on: each interpreter with a GIL of its own may have the module. */
#ifndef Py_mod_multiple_interpreters
#define Py_mod_multiple_interpreters 3
#define Py_MOD_PER_INTERPRETER_GIL_SUPPORTED ((void *)2)
#endif

static PyModuleDef_Slot module_slots[] = {
    {Py_mod_exec, module_exec},
    {Py_mod_multiple_interpreters, Py_MOD_PER_INTERPRETER_GIL_SUPPORTED},
    {0, NULL},
};
static struct PyModuleDef definition = {
    PyModuleDef_HEAD_INIT, "_nattizhu", NULL, sizeof(Module), functions, module_slots,
    module_traverse, module_clear, module_free};

PyMODINIT_FUNC PyInit__nattizhu(void);
PyMODINIT_FUNC PyInit__nattizhu(void) {
  if (Py_Version < 0x030c0000)
    module_slots[1] = module_slots[2];
  return PyModuleDef_Init(&definition);
}
