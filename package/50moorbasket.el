;;; 50moorbasket.el --- Debian's Emacs takes .fsub files  -*- lexical-binding: t -*-
;; It stays when the package is removed and not purged, so it looks whether the package is there.
(when (file-exists-p "/usr/share/emacs/site-lisp/moorbasket/fullsub-autoloads.el")
  (load "/usr/share/emacs/site-lisp/moorbasket/fullsub-autoloads" nil t))
