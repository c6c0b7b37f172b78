;; By this file Emacs takes the folder for one of its packages, and loads fullsub-autoloads.el at each start.
(define-package "fullsub" "1.0" "The lambda calculus with records and subtyping" '((emacs "27.1")))
